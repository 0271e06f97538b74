// Initial values that are truth values, by each operator.
// asks P>=1/2 [ F<=5 a&!b ]
// asks P>=1/2 [ G<=2 c|d|e|f|g ]
dtmc
const bool ON = true;
const int N = 3;
module m
  a : bool init true;
  b : bool init !ON|false;
  c : bool init N<4&N>2;
  d : bool init N<=3&(ON=>N>=3);
  e : bool init ON<=>N=3.0;
  f : bool init ON!=false;
  g : bool init (N!=3);
  h : bool init !!ON;
  [] !a|b -> (a'=true) & (b'=g);
  [] a&!b -> 3/10 : (b'=h) + 0.7 : (c'=d) & (e'=f);
endmodule
