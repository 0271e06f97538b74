// A fair coin from an unfair one: toss twice, take the first toss where the two differ, and toss twice again otherwise.
// Source: von Neumann, Various techniques used in connection with random digits (1951).
// Parameters: HEADS, how likely the unfair coin shows heads. It has no value here: give it with --const=HEADS=0.8.
// Try: a few values of HEADS. Heads and tails stay equally likely, but how long does it take?
dtmc

const double HEADS;

module coin
  tossed : bool init false;  // whether the first toss of a pair lies on the table
  first : bool init false;  // whether it shows heads
  result : [0..2] init 0;  // 0: none yet, 1: heads, 2: tails

  [] result=0 & !tossed -> HEADS : (tossed'=true) & (first'=true) + 1-HEADS : (tossed'=true) & (first'=false);
  [] result=0 & tossed & first -> HEADS : (tossed'=false) + 1-HEADS : (tossed'=false) & (result'=1);
  [] result=0 & tossed & !first -> HEADS : (tossed'=false) & (result'=2) + 1-HEADS : (tossed'=false);
endmodule

label "decided" = result!=0;
