// Formulas of numbers, by each operator and function.
// asks P>=1/2 [ F<=6 "equal" ]
// asks P>=1/2 [ F<=6 all>5 ]
dtmc
formula sum=a+b-1;
formula product = a*2*b;
formula share = a/4;
formula least = min(a,b,3);
formula most = max(a,b);
formula down = floor(share+0.5);
formula up = ceil(share);
formula square = pow(a,2);
formula rest = mod(square+1,3);
formula less = -a;
formula all = (sum)+product*2-less+up;
module m
  a : [0..3] init 1;
  b : [0..3] init 2;
  [] most<3 -> share : (a'=min(a+1,3)) + 1-share : (b'=min(b+1,3));
  [] most=3 -> (a'=down) & (b'=rest);
endmodule
label "equal" = least=most;
