9X NOP
 .word 12G
 .word 'A
 .word @
 B 1+
 .word 7/-2
 .word -7>>1
 .word 1+2<<3
 .word 0FFh&~0Fh
 .word 70000
 .word 1/0
 .word 1<<31
 .word 1/0<<40
 .word R*U
 .word R/0
 .word -2147483648
 .word -2147483647-1
 .word (-2147483647-1)/-1
 .word (-2147483647-1)%-1
 .word 0FBD
 .word 0x10
 .word 2B
 .word 8Q
 .word 0B
 .word 0FBh
 .word 11B
 .word 12_3
 .word 5$
 .word $A
 .word ''''
 .word ''
 .word 'AB'
 .sect .text
 .word .text
 .asg a.b,c
 .title 99999999999
X:NOP
X: NOP
X:
 LAC*
 P(1)
 'A
 .word E-E
 .word 5-R
 .word R-R
 .word R-Q
 .word E+R
 .word LD1
 .word 1+LD1
 .word LD1-X
 .word (LD1+2)-(LD1-1)
 .word LD1-LD2
 .word LD1-R
 .word R-LD1
 .word LD1-$
 .word LD1+R
 .word -LD1
 .word LD2>>1
 .word +E
 .word -E
 .word 1=1
 .word 1==2
 .word 1!=2
 .word pa15+AR7
 .word PA16
 .word ar8
 .word ((((((((((((((((((((((((((((((((((((((((((((((((((((((((((((((((1))))))))))))))))))))))))))))))))))))))))))))))))))))))))))))))))
 .word (((((((((((((((((((((((((((((((((((((((((((((((((((((((((((((((((1)))))))))))))))))))))))))))))))))))))))))))))))))))))))))))))))))
 .word (((((((((((((((((((((((((((((((((((((((((((((((((((((((((((((((((
 .word ----------------------------------------------------------------1
 .word -----------------------------------------------------------------1

b-%|/^= @&éA,".'/%
é,+
&(/<1;h,<%AH/^+h
L .word- ; c
L  .word 1 ; c
é LAC;..] 5$
9X .word+pa15;é
_bHhB0,+H@/$~
%+9q$-b)&b=(h*BQBé0&_H+
9X  .word'A';é
*.textéé2B..)
'!
L .word U;é
&$0~"
_ @}  8QX 'AB'
L .word F ; c
.+ 0|é9$Qé,=q|+a
L:  .word 2147483648 ^  "s"<<  U;é
 .word pa15
/@B|é
L: .word32&'A'
*\'$A_a$1%.word
|&h+@a
&^!@ ,@'0|:qé@&q+>
 H -
@A(Hé--+$<B><@^>
X:NOP LAC* X:  ` "a;b"
X:NOP $A:#@
+1q/;'"$)A1) &q^>0
h)é;)&/)=,-/_!:
B.>q9aé*B-(=_
;@+,-'a
  .word "s";é
L:  .word ''''
L:  .word X ; c
L .word 0ffffffffh>S
L é %
A$ @ "a""b"
  .word ~Y
 .word2147483647 <=2147483648
*=
L:  .wordF
QQ;é++;"
  .word Z
;>,"a;b""a;b"X:
L: .word Y
;12G.text
 .word 12
 (
 X
 @  8Q .word$
 .#'é'
L  .word65535;é
*a$~^_%<9 >|<@!^~ $A"A1
  .word (-  F)
 &a1$_
;.sect';'@*BR0-
  .word 0FFh;é
L:  .word -;é
  .word 32^'A'
  .word (  -7>> Y  )
 é:^',**/+ %q~);(- /$^h
L .word ,12  <=  'AB' 'A''' ~
_ : @!=== $A
L:  .word R
L .word ~ R
 é
  .word pa15;é
L:  .word AR3>>Pa16/- 2 ; c
L: .word X
L  .word 31;é
A$ é %.0FBhX::
L é X
L .word "].sect<=2B_a$1
 .word 99999999999=($ )
 LAC {
 .word S;é
L: q"a" [5$
  .word $
L: .word 03Q
L: .word +  pa15>(AR3);é
 .word E;é
 é :>=  ""12_3
 .word 0FFh ; c
L  .word 99999999999
  .word 17q&(ar8  )=='''';é
L  .word 'A'  !=  ~-'A'
 .word -X/  pa15^pa15 +pa15
L:  .word E;é
L .word (2)  |  ( Pa16  )
L  .word S<(R ^R  <=99999999999  )  ==12
 é '(  ..
L  .word (32)
 .word 12;é
 "+1é /-$~('@>(<
 .word ar8;é
 .word Z
H "!,é:<H<((*0
 .word F
  .word -2147483648 ; c
 .word , ; c
A$ é !(
A$ .word
L  .word 32<<0FFh
L: @|" }
 .word;é
L .word +-7
 éqa_!,;0
 .word R
  .word F
  .word F &0/ (U)
 @.word$X'A'-  }
 .word (
 .word 03Q&AR3
  .word ~(Z*0FFh<=  99999999999)
 .word (31 ) ; c
L  .word ar8&  ''''  =0FFh>>2|AR3== "s"  !=12
L: .word F ; c
  .word (  S) ; c
L é$A!=''''0FBh
 .word E
L:  .word 0B;é
  .word 12 ; c
_ q"a" X:X:
L .word 0ffffffffh ; c
L .word
 .word 2 ; c
  .word -
L  .word AR3 ; c
L: .word 99999999999
L  .word '''' ; c
  .word Q;é
A$ 12G<   \"a""b"=..
  .word 'A'
L: .word Q
 é _a$1" .'é'
L  .word (Pa16 )
A ~h aé<.- )b&Q<|"~~|
  .word 32;é
L:  .word 0
L:  .word --'A';é
 .word .text ; c
 .word 101b
 LAC .. < *+ @ (
  .word 03Q ; c
  .word 0ffffffffh
L  .word 101b
 .word 03Q  >=32= 03Q ; c
L: .word 65535
L: é :X  X::*+
a0 |&@,$|&Q ,1"'((H
  .word Y  ==  Z ; c
L: .word +  S  /(101b) ; c
L:  .word Z
  .word X==''''
L:  .word 0FFh^2147483647<=  (( ) ; c
 .word .text;é
L:  .word F;é
  .word 0
L: .word 0ffffffffh
  .word X
L  .word 'A'
 .word (F)
L  .word 0B
 .word (ar8)
  .word - ; c
  .word 2
 .word Pa16=Q;é
 .word 'é'5$
L  .word U
 .word Pa16<R=  99999999999;é
L: .word 12/32
L: .word -
L .word ar8
L  .word (() ; c
  .word -  0FFh ; c
L:  .word 99999999999;é
L .word 101b
L  .word 0ffffffffh;é
 .word
  .word ($ )
 .word 32
L: @ 8Q  8Q!=1211B;
L:  .word Z ; c
L: .word 101b ; c
  .word 32
L  .word -31*S-S
  .word (101b )
L .word 0FFh
L:  .word AR3 ; c
  .word 2147483648 ; c
L: .word S ; c
  .word 2147483647 ; c
L  .word 0ffffffffh/  32;é
  .word ~ Y* (17q) ; c
 9$%<^ "1
L: .word AR3
L .word 2
L:  .word ~2147483648
L .word F;é
L: LAC* !=5$11B  12G
L  .word 2147483648
L:  .word ~  F
 .word Q
_ .wordX: "  ~ <=
L:  .word $;é
 @..  !=';'12G ^~  12_3
L .word S|2147483648 >=(<0B
 .word -;é
  .word - 12= -
 .word (R  )
L:  .word ,
  .word 12%(=  E<<"s"% +  )&  'A' ; c
L .word (  0ffffffffh  )
  .word (Q  ) ; c
L .word 0ffffffffh
L .word (Q ) ; c
L  .word
L:  .word F ; c
L:  .word Q
L: .word
_ .word
L .word 2147483648
  .word E  *  2147483647;é
  .word 2147483648>>pa15  ==AR3;é
L  .word F
L .word +2147483648==  12  <2147483647
 .word ($  >(99999999999) );é
L .word S --
 .word 2<03Q <=Y/F
L  .word S<=0
 .word (pa15*$ )
L:  .word -  (E  <<$|E-17q);é
L  .word +S>>0FFh
  .word (-101b= -)  *+ Y=='A'=0FFh^pa15  =(101b)
 .word 101b%E >  2147483647;é
L  .word S>>0
L  .word 32 &-- | 99999999999;é
L  .word AR3!=(AR3)= -17q>X/0B;é
 .word (31+32==,>=));é
L: .word (-  )
_  X:: 12G  <<
 .word 0FFh/-;é
L LAC* 2B
  .word  ; c
A$ 12G2BX:*BR0- 'AB' "a;b" \
  .word $ ; c
L:  .word (2147483648) ^2147483647/E-'A'^0ffffffffh  < ^0ffffffffh ; c
L:  .word "s" ; c
  @ 2B
 .word 1!=E;é
  .word 0FFh*  Q/0ffffffffh
L q"a" |8Q, `
 .word S ; c
L:  .word R ; c
  .word -.text
L: .word Z!=S
  .word ( 7  % S);é
 .word +Z>>32>=2<Q ^E +E==Pa16  >>  R>= "s"  !=99999999999
  .word ) ; c
L:  .word Y>F
L  .word Q
  .word -Q
L: .word -;é
L: .word ; c
L  .word 2147483647!= 0>F;é
 .word 32=32 /  .text<<F == 0 ==-
 .word S*03Q
L: .word S< (31) ; c
L:  .word S;é
  $  ''''12_3'é'\
L .word (101b  +F* 12-17q );é
L: .word 1*  F;é
 @.9 -'~ "*
L: LAC 0B%2B
L: .word R
 )|: ,-=h~a"
  .word S;é
  .word 03Q%0 |Y> 2147483647<0B  <<+''''
 ]  8Q
  .word S ; c
L:  .word $
L: LAC* 'A%"a;b"5$""  ..$A
A$ LAC* ,'é'  _a$1 LAC
A$ LAC ====  *  0x10
L LAC )<  ) ,  '
A$ @<<[  +  'AB'!=12  {  .text
 *BR0- 'AB'-
L: q"a"2B  0x10 0x10 ,
_ 12G ,  12_3'é'
A$ X:  'AB'
L: LAC'A.- 'A    .word$A
A _-.A ^":;/
L LAC 'A?  }"é"
_ LAC* 0B5$.sect
A$ .word 0FBh>>12G
L LAC*'-!= 0x100x10"
L  <  >=  12G
L LAC* 8Q  $A"~
 @ <=2B
 LAC*  2B
L .word ~65535| 65535<pa15  & 17q%0<<17q
L  .word 65535%  0B
 .word -7 /0 >(Y) ; c
L  .word -03Q  /0<03Q ; c
 .word "é"
 .word 70000 ; a comment
 .word 1+
 .word x
 .word X
