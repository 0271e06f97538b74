// Labels over numbers, by each operator and function.
// asks P>=1/2 [ F<=8 "half"&!"even" ]
// asks P>=1/2 [ "low" U<=8 "top" ]
dtmc
module m
  x : [-1..5];
  y : [0..5];
  [] x<5 -> 1/2 : (x'=x+1) + 1/2 : (y'=max(x,0));
endmodule
label "half" = x/2-y*1>=-0.5;
label "even" = mod(x+1,2)=(1);
label "low" = min(x,y,4)<3&-x>-6;
label "top" = max(x,y)=pow(2,2)+1.0;
label "near" = floor(x/2)=ceil(y/2)&x!=y;
label "if" = x<=y;
