// A queue in slots: a request may come, and the request in service may be done, in each slot; a full queue turns away.
// Source: the discrete-time queue of one server; Hunter, Mathematical Techniques of Applied Probability, volume 2 (1983).
// Parameters: COMES and DONE, how likely each is in a slot; ROOM, the requests that find room, the one in service included.
// Try: COMES = 0.45, or twice the room.
dtmc

const double COMES = 0.3;
const double DONE = 0.4;
const int ROOM = 8;

formula up = COMES*(1-DONE);
formula down = DONE*(1-COMES);

module queue
  requests : [0..ROOM] init 1;

  [] requests=0 -> COMES : (requests'=1) + 1-COMES : true;
  [] requests>0 & requests<ROOM -> up : (requests'=requests+1) + down : (requests'=requests-1) + 1-up-down : true;
  [] requests=ROOM -> down : (requests'=requests-1) + 1-down : true;
endmodule

label "full" = requests=ROOM;
label "idle" = requests=0;
