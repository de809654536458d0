 .title "t"
 .width 99999999999
X .LIST
 .nolist
 .page
 .length 60
 .option X
 .mlist
 .mnolist
 .fclist
 .fcnolist
 .sslist
 .ssnolist
