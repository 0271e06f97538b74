// Contention with back-off: two stations that sent at the same time wait, each for a random number of slots, and send again.
// Source: Metcalfe and Boggs, Ethernet: distributed packet switching for local computer networks (1976).
// After the c-th collision each waits for 0 to window-1 slots, all equally likely, where the window is 2, 4 and 8 and then
// stays. The station whose wait ends first sends; where both end at once, they collide again.
// Parameters: LAST, the collisions after which both give up.
// Try: a window that stays at 2. How many more collisions come?
dtmc

const int LAST = 6;

formula window = pow(2, min(collisions+1, 3));

module station1
  wait1 : [0..7] init 0;  // slots left to wait

  [collide] true -> 1/window : (wait1'=0)
                  + 1/window : (wait1'=1)
                  + (window>2 ? 1/window : 0) : (wait1'=2)
                  + (window>2 ? 1/window : 0) : (wait1'=3)
                  + (window>4 ? 1/window : 0) : (wait1'=4)
                  + (window>4 ? 1/window : 0) : (wait1'=5)
                  + (window>4 ? 1/window : 0) : (wait1'=6)
                  + (window>4 ? 1/window : 0) : (wait1'=7);
  [slot] wait1>0 -> (wait1'=wait1-1);
endmodule

module station2 = station1 [ wait1=wait2 ] endmodule

module medium
  collisions : [0..LAST] init 0;

  [collide] wait1=0 & wait2=0 & collisions<LAST -> (collisions'=collisions+1);
endmodule

// one of them sends: the two truth values differ
label "sent" = (wait1=0) != (wait2=0);
