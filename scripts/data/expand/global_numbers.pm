// Globals of numbers, by each operator and function.
// asks P>=1/2 [ F<=8 u=v ]
dtmc
const int N = 2;
global t : [-N..N*3] init mod(9,5)-min(N,3,5);
global u : [0..floor(9/N)] init (1);
global v : [0..max(N,3)] init ceil(1.5)-1;
global w : [pow(N,1)-2..pow(N,2)+0] init floor(.75);
module m
  x : [0..1];
  [] u<3 -> 1/2 : (u'=u+1) + 1/2 : (v'=u);
  [] u>=3&w<4 -> (w'=w+1) & (t'=w);
endmodule
