// Initial values, by each operator and function.
// asks P>=1/2 [ F<=6 a=4 ]
// asks P>=1/2 [ X b+c+d+e+f+g+h+i+j+k>12 ]
dtmc
const int N = 2;
module m
  a : [-4..4] init N;
  b : [-4..4] init -N+4;
  c : [-4..4] init N*N;
  d : [-4..4] init floor(5/N);
  e : [-4..4] init ceil(2.25);
  f : [-4..4] init min(N,4,3);
  g : [-4..4] init max(N,1);
  h : [-4..4] init pow(N,2);
  i : [-4..4] init mod(10,6);
  j : [-4..4] init (3);
  k : [-4..4] init N-1-2- -1;
  [] a<4 -> 1/2 : (a'=a+1) + 1/2 : (a'=k) & (k'=j);
endmodule
