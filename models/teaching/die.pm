// A fair die from a fair coin: six faces, each equally likely, by tosses alone.
// Source: Knuth and Yao, The complexity of nonuniform random number generation (1976).
// The tosses walk down a tree from node 0. At two of its leaves the walk begins again one level below the root.
// Parameters: HEADS, how likely heads is.
// Try: HEADS = 2/3: which faces become more likely?
dtmc

const double HEADS = 1/2;

module die
  node : [0..6] init 0;  // place in the tree
  face : [0..6] init 0;  // what the die shows, 0 while it rolls

  [] face=0 & node=0 -> HEADS : (node'=1) + 1-HEADS : (node'=2);
  [] face=0 & node=1 -> HEADS : (node'=3) + 1-HEADS : (node'=4);
  [] face=0 & node=2 -> HEADS : (node'=5) + 1-HEADS : (node'=6);
  [] face=0 & node=3 -> HEADS : (node'=1) + 1-HEADS : (face'=1) & (node'=0);
  [] face=0 & node=4 -> HEADS : (face'=2) & (node'=0) + 1-HEADS : (face'=3) & (node'=0);
  [] face=0 & node=5 -> HEADS : (face'=4) & (node'=0) + 1-HEADS : (face'=5) & (node'=0);
  [] face=0 & node=6 -> HEADS : (node'=2) + 1-HEADS : (face'=6) & (node'=0);
endmodule

label "shown" = face>0;

// a PRISM model may carry rewards; they are passed over here
rewards "tosses"
  face=0 : 1;
endrewards
