// Pólya's urn: a ball is drawn, and put back together with another of its colour. The rich get richer.
// Source: Eggenberger and Pólya, Über die Statistik verketteter Vorgänge (1923).
// Parameters: RED and BLUE, the balls at the start; FULL, when it ends.
// Try: BLUE = 3. With one ball of each colour every number of red balls is equally likely in the end.
dtmc

const RED = 1;  // a constant without a sort is a whole number
const BLUE = 1;
const FULL = 10;

formula balls = red + blue;

module urn
  red : [RED..FULL] init RED;
  blue : [BLUE..FULL] init BLUE;

  [] balls<FULL -> red/balls : (red'=red+1) + blue/balls : (blue'=blue+1);
endmodule

label "full" = balls=FULL;
