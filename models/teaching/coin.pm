// Heads in a row: a coin is tossed until it has shown heads WANTED times one after another. The model to begin with.
// Source: Feller, An Introduction to Probability Theory and Its Applications, volume 1 (1968), chapter XIII.
// Parameters: HEADS, how likely heads is; WANTED, how many heads in a row end it.
// Try: HEADS = 3/5, or WANTED = 4, and ask the same questions again.
dtmc

const double HEADS = 1/2;
const int WANTED = 3;

module coin
  heads : [0..WANTED] init 0;  // heads in a row so far

  // a toss: the command may be taken where its guard holds, and then one of its two branches, by its weight
  [] heads<WANTED -> HEADS : (heads'=heads+1) + 1-HEADS : (heads'=0);
endmodule

// no command may be taken here, so the chain stays
label "wanted" = heads=WANTED;
