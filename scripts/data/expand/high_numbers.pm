// Upper ends of ranges, by each operator and function.
// asks P>=1/2 [ F<=6 a+b>2 ]
dtmc
const int N = 2;
module m
  a : [0..N];
  b : [-5..-N+4];
  c : [0..N*N];
  d : [0..floor(5/N)];
  e : [0..ceil(2.25)];
  f : [0..min(N,4,3)];
  g : [0..max(N,1)];
  h : [0..pow(N,2)];
  i : [0..mod(11,6)];
  j : [0..(3)];
  k : [0..N-1];
  [] a<2 -> 1/2 : (a'=a+1) & (c'=c+1) & (e'=k) + 1/2 : (b'=a) & (d'=k) & (k'=1);
  [] a=2&h<4 -> (h'=h+1) & (g'=f) & (f'=j) & (i'=5);
endmodule
