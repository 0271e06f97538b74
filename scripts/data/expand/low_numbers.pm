// Lower ends of ranges, by each operator and function.
// asks P>=1/2 [ F<=6 a=4&d=e+1 ]
// asks P<=1/2 [ F<=3 b=l ]
dtmc
const int N = 2;
module m
  a : [0..4];
  b : [-N..4];
  c : [N-1..4];
  d : [N*1..4];
  e : [floor(N/4)..4];
  f : [ceil(0.5)..4];
  g : [min(N,1,3)..4];
  h : [max(0,1)..4];
  i : [pow(N,1)..4];
  j : [mod(5,3)..4];
  k : [(1)..4];
  l : [N+N-N..4];
  [] a<4 -> 1/2:(a'=a+1)&(b'=c)&(c'=d)&(g'=h)&(h'=i) + 1/2:(d'=max(2,e))&(e'=f)&(f'=k)&(k'=l)&(l'=j);
endmodule
