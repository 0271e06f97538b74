// A random walk on the whole numbers: up or down by one, whichever way.
// Source: Feller, volume 1 (1968), chapter III.
// Two commands may be taken at once, and then either is taken with the same probability: no weights are needed.
// Parameters: EDGE, where the walk turns back. Up to EDGE steps it doesn't matter.
// Try: a longer horizon. The walk comes home ever more surely, but slowly.
dtmc

const int EDGE = 20;

module walk
  place : [-EDGE..EDGE] init 0;
  moved : bool init false;  // true from the first step on

  [] place<EDGE -> (place'=place+1) & (moved'=true);
  [] place>-EDGE -> (place'=place-1) & (moved'=true);
endmodule

label "home" = place=0;
