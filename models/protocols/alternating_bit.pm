// The alternating bit: one bit in each message keeps a receiver from accepting a repeated message as the next one.
// Source: Bartlett, Scantlebury and Wilkinson, A note on reliable full-duplex transmission over half-duplex links (1969).
// Messages and receipts are lost with probability LOSS. When the receipt is lost the message comes again.
// Parameters: CHECKED, whether the receiver looks at the bit, given with --const=CHECKED=true; MESSAGES; LOSS.
// Try: CHECKED=false, and look at a trace in which a message is accepted twice.
dtmc

const bool CHECKED;
const int MESSAGES = 3;
const double LOSS = 0.2;

module sender
  waits : bool init false;
  bit : bool init false;  // the bit of the present message
  confirmed : [0..MESSAGES] init 0;

  [send] !waits & confirmed<MESSAGES -> (waits'=true);
  [receipt] waits & (receipt_bit<=>bit) -> (waits'=false) & (bit'=!bit) & (confirmed'=confirmed+1);
  [receipt] waits & !(receipt_bit<=>bit) -> (waits'=false);
  [timeout] waits -> (waits'=false);
endmodule

module there
  message : [0..2] init 0;  // 0: nothing, 1: under way, 2: lost
  message_bit : bool init false;

  [send] message=0 -> 1-LOSS : (message'=1) & (message_bit'=bit) + LOSS : (message'=2);
  [deliver] message=1 -> (message'=0);
  [timeout] message=2 | receipt=2 -> (message'=0);
endmodule

module receiver
  expected : bool init false;  // the bit of the next message
  accepted : [0..MESSAGES+1] init 0;  // a count that stops one past the messages

  [deliver] !CHECKED | (message_bit<=>expected) -> (expected'=!expected) & (accepted'=min(accepted+1, MESSAGES+1));
  [deliver] CHECKED & !(message_bit<=>expected) -> true;  // a repeated message: nothing changes
endmodule

module back
  receipt : [0..2] init 0;  // 0: nothing, 1: under way, 2: lost
  receipt_bit : bool init false;

  [deliver] receipt=0 -> 1-LOSS : (receipt'=1) & (receipt_bit'=message_bit) + LOSS : (receipt'=2);
  [receipt] receipt=1 -> (receipt'=0);
  [timeout] true -> (receipt'=0);
endmodule

label "finished" = confirmed=MESSAGES;
