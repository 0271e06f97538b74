// Upper ends of ranges that formulas give, in a renamed module too.
// asks P>=1/2 [ F<=6 x=3|y=4 ]
dtmc
module n=m[x=y,N=K]endmodule
const int N = 1;
const int K = 2;
formula top = N*2+1;
module m
  x : [0..top>2?top:-top];
  [step] x<top -> half : (x'=x+1) + half : true;
endmodule
formula half = 1/2;
