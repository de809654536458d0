 add *+,2,AR3
 sub 5,1
 lac *0-,15,AR7
 sacl *-,3,AR1
 sach 7Fh,7
 lar AR4,*BR0+,AR7
 sar AR1,61h
 in 60h,PA2
 out *BR0-,PA15,AR1
 bit *,15,AR2
 mpy *-,AR2
 sqra 1
 mpya *+
 mpys *0+,AR4
 lt 2
 lta *
 ltp *-
 ltd 3
 zalh *0-
 zals 4
 lact *BR0-
 addc 6
 subh *0+
 subs 7
 subt *BR0+
 subc 8
 addh *,AR5
 adds 9
 addt *+,AR6
 rpt 10
 xor *-,AR7
 or 11
 and *0-,AR0
 subb 12
 lst *+,AR1
 lst1 13
 ldp *
 lph 14
 pshd *-
 mar *0+,AR3
 dmov 15
 bitt *BR0+,AR1
 tblr 16
 tblw *+
 sqrs 17
 lts *-
 sst 18
 sst1 *0-
 popd 19
 zalr *BR0-
 spl 20
 sph *+,AR2
 mpyu 127
 macd 0FF00h,*-
 mac 0FF01h,21
 blkp 1234h,*+,AR5
 blkd 300h,*0+
 bc 1
 bnc 2,*
 bv 3,*-
 bgz 4,*+,AR1
 blez 5,*0-
 blz 6,*0+,AR2
 bgez 7,*BR0-
 bnz 8,*BR0+,AR3
 bz 9,*,AR4
 bnv 10,*-,AR5
 bbz 0ABCDh
 bbnz 0FFFFh,*+
 bioz 8000h
 banz 123h
 call 13,*+,AR6
 b 0,*,AR7
 adrk 255
 sbrk 1
 lack 65
 rptk 2
 addk 128
 subk 127
 lark AR3,127
 ldpk 511
 mpyk -1
 lrlk AR3,0A0Bh
 lalk 0FFFFh,4
 adlk 1
 sblk 2,15
 andk 0FF00h,8
 ork 4660,1
 xork -1,7
 eint
 dint
 rovm
 sovm
 cnfd
 cnfp
 rsxm
 ssxm
 rxf
 sxf
 pac
 apac
 spac
 sfl
 sfr
 abs
 push
 pop
 trap
 idle
 rtxm
 stxm
 neg
 cala
 bacc
 ret
 cmpl
 rc
 sc
 rtc
 stc
 rol
 ror
 rfsm
 sfsm
 rhm
 shm
 spm 3
 fort 1
 cmpr 2
 norm *BR0+
 zac
 nop
 larp 4
