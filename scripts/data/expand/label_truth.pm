// Labels that are truth values, by each operator, and with reserved words as names.
// asks P>=1/2 [ F<=6 "true"&!"module" ]
// asks P>=1/2 [ F<=6 "imply"&"same" ]
dtmc
rewards "steps" true : 1; [] true : 2; endrewards
module m
  a : bool;
  b : bool;
  n : [0..2];
  [] n<2 -> 1/2 : (n'=n+1) & (a'=!a) + 1/2 : (b'=!b);
endmodule
label "true" = true|false;
label "module" = !a&b;
label "same" = a<=>b;
label "imply" = a=>n>=1;
label "not" = !!a=b!=(n<1);
label "few" = n<=1&n!=1|n>0;
