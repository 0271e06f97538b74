// Globals that are truth values, and ranges by conditions.
// asks P>=1/2 [ F<=6 p&q ]
dtmc
const bool ON = true;
const int N = 3;
global p : bool init !ON|N<2;
global q : bool;
global r : bool init N=3&(ON<=>N!=4)&(N>=3=>N<=3);
global s : [N>3?1:0..N>=3?2:1] init true?1:0;
module m
  x : bool;
  [] !p -> 1/2 : (p'=r) + 1/2 : (q'=!q);
  [] p&!q -> (q'=true) & (s'=false?1:2);
endmodule
