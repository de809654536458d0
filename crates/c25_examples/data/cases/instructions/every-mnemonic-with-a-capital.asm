 Add *+,2,AR3
 Sub 5,1
 Lac *0-,15,AR7
 Sacl *-,3,AR1
 Sach 7Fh,7
 Lar AR4,*BR0+,AR7
 Sar AR1,61h
 In 60h,PA2
 Out *BR0-,PA15,AR1
 Bit *,15,AR2
 Mpy *-,AR2
 Sqra 1
 Mpya *+
 Mpys *0+,AR4
 Lt 2
 Lta *
 Ltp *-
 Ltd 3
 Zalh *0-
 Zals 4
 Lact *BR0-
 Addc 6
 Subh *0+
 Subs 7
 Subt *BR0+
 Subc 8
 Addh *,AR5
 Adds 9
 Addt *+,AR6
 Rpt 10
 Xor *-,AR7
 Or 11
 And *0-,AR0
 Subb 12
 Lst *+,AR1
 Lst1 13
 Ldp *
 Lph 14
 Pshd *-
 Mar *0+,AR3
 Dmov 15
 Bitt *BR0+,AR1
 Tblr 16
 Tblw *+
 Sqrs 17
 Lts *-
 Sst 18
 Sst1 *0-
 Popd 19
 Zalr *BR0-
 Spl 20
 Sph *+,AR2
 Mpyu 127
 Macd 0FF00h,*-
 Mac 0FF01h,21
 Blkp 1234h,*+,AR5
 Blkd 300h,*0+
 Bc 1
 Bnc 2,*
 Bv 3,*-
 Bgz 4,*+,AR1
 Blez 5,*0-
 Blz 6,*0+,AR2
 Bgez 7,*BR0-
 Bnz 8,*BR0+,AR3
 Bz 9,*,AR4
 Bnv 10,*-,AR5
 Bbz 0ABCDh
 Bbnz 0FFFFh,*+
 Bioz 8000h
 Banz 123h
 Call 13,*+,AR6
 B 0,*,AR7
 Adrk 255
 Sbrk 1
 Lack 65
 Rptk 2
 Addk 128
 Subk 127
 Lark AR3,127
 Ldpk 511
 Mpyk -1
 Lrlk AR3,0A0Bh
 Lalk 0FFFFh,4
 Adlk 1
 Sblk 2,15
 Andk 0FF00h,8
 Ork 4660,1
 Xork -1,7
 Eint
 Dint
 Rovm
 Sovm
 Cnfd
 Cnfp
 Rsxm
 Ssxm
 Rxf
 Sxf
 Pac
 Apac
 Spac
 Sfl
 Sfr
 Abs
 Push
 Pop
 Trap
 Idle
 Rtxm
 Stxm
 Neg
 Cala
 Bacc
 Ret
 Cmpl
 Rc
 Sc
 Rtc
 Stc
 Rol
 Ror
 Rfsm
 Sfsm
 Rhm
 Shm
 Spm 3
 Fort 1
 Cmpr 2
 Norm *BR0+
 Zac
 Nop
 Larp 4
