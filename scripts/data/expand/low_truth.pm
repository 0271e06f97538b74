// Lower ends of ranges by conditions, of each operator on truth values.
// asks P>=1/2 [ F<=4 a+b+c+d>4 ]
dtmc
const bool ON = true;
module m
  a : [true?0:1..3];
  b : [!ON|false?1:0..3];
  c : [1<2&2>1?0:1..3];
  d : [1<=2&(ON=>3>=3)?0:1..3];
  e : [ON<=>1=1.5?0:1..3];
  f : [ON!=false?0:1..3];
  [] a<3 -> 1/2 : (a'=a+1) & (b'=e) + 1/2 : (c'=a) & (d'=f+1) & (f'=1);
endmodule
