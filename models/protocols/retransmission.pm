// Retransmission: a sender repeats a message until it is confirmed, or gives up after TRIES tries.
// Source: the stop-and-wait protocol; Tanenbaum, Computer Networks (1981).
// The message and its receipt use the same line. When either is lost, the sender's timer runs out. So the sender may give
// up although the message came: no bound on the tries removes that doubt.
// Parameters, given with --const=TRIES=4,LOSS=0.2: TRIES; LOSS, how likely the line loses what it carries.
// Try: what is more useful, one more try or a line that is better by half?
dtmc

const int TRIES;
const double LOSS;

module sender
  sender : [0..3] init 0;  // 0: ready to send, 1: waits, 2: confirmed, 3: given up
  tries : [0..TRIES] init 0;

  [send] sender=0 & tries<TRIES -> (sender'=1) & (tries'=tries+1);
  [confirm] sender=1 -> (sender'=2);
  [timeout] sender=1 & tries<TRIES -> (sender'=0);
  [timeout] sender=1 & tries=TRIES -> (sender'=3);
endmodule

module line
  line : [0..3] init 0;  // 0: idle, 1: carries the message, 2: carries the receipt, 3: has lost it

  [send] line=0 -> 1-LOSS : (line'=1) + LOSS : (line'=3);
  [deliver] line=1 -> 1-LOSS : (line'=2) + LOSS : (line'=3);
  [confirm] line=2 -> (line'=0);
  [timeout] line=3 -> (line'=0);
endmodule

module receiver
  received : bool init false;

  [deliver] true -> (received'=true);
endmodule

label "confirmed" = sender=2;
label "doubt" = sender=3 & received;
