; ModuleID = '<stdin>'
source_filename = "checksum.c"
target datalayout = "e-m:e-p:64:64-i64:64-i128:128-n32:64-S128"
target triple = "riscv64-unknown-linux-gnu"

; Function Attrs: noinline nounwind
define dso_local signext i32 @main() #0 {
  %1 = call signext i32 @getchar() #2
  br label %2

2:                                                ; preds = %4, %0
  %.08 = phi i32 [ 65535, %0 ], [ %5, %4 ]
  %.07 = phi i32 [ %1, %0 ], [ %6, %4 ]
  %3 = icmp ne i32 %.07, -1
  br i1 %3, label %4, label %7

4:                                                ; preds = %2
  %5 = call signext i32 @add(i32 noundef signext %.08, i32 noundef signext %.07) #2
  %6 = call signext i32 @getchar() #2
  br label %2, !llvm.loop !7

7:                                                ; preds = %2, %9
  %.0 = phi i32 [ %12, %9 ], [ 12, %2 ]
  %8 = icmp sge i32 %.0, 0
  br i1 %8, label %9, label %13

9:                                                ; preds = %7
  %10 = lshr i32 %.08, %.0
  %11 = and i32 %10, 15
  call void @put_digit(i32 noundef signext %11) #2
  %12 = sub nsw i32 %.0, 4
  br label %7, !llvm.loop !9

13:                                               ; preds = %7
  %14 = call signext i32 @putchar(i32 noundef signext 10) #2
  ret i32 0
}

declare signext i32 @getchar() #1

; Function Attrs: noinline nounwind
define internal signext i32 @add(i32 noundef signext %0, i32 noundef signext %1) #0 {
  %3 = shl i32 %1, 8
  %4 = xor i32 %0, %3
  br label %5

5:                                                ; preds = %7, %2
  %.08 = phi i32 [ %4, %2 ], [ %14, %7 ]
  %.0 = phi i32 [ 0, %2 ], [ %15, %7 ]
  %6 = icmp slt i32 %.0, 8
  br i1 %6, label %7, label %16

7:                                                ; preds = %5
  %8 = and i32 %.08, 32768
  %9 = icmp ne i32 %8, 0
  %10 = shl i32 %.08, 1
  %11 = xor i32 %10, 4129
  %12 = shl i32 %.08, 1
  %13 = select i1 %9, i32 %11, i32 %12
  %14 = and i32 %13, 65535
  %15 = add nsw i32 %.0, 1
  br label %5, !llvm.loop !10

16:                                               ; preds = %5
  ret i32 %.08
}

; Function Attrs: noinline nounwind
define internal void @put_digit(i32 noundef signext %0) #0 {
  %2 = icmp ult i32 %0, 10
  %3 = add i32 48, %0
  %4 = add i32 97, %0
  %5 = sub i32 %4, 10
  %6 = select i1 %2, i32 %3, i32 %5
  %7 = call signext i32 @putchar(i32 noundef signext %6) #2
  ret void
}

declare signext i32 @putchar(i32 noundef signext) #1

attributes #0 = { noinline nounwind "frame-pointer"="all" "no-builtins" "no-trapping-math"="true" "stack-protector-buffer-size"="8" "target-cpu"="generic-rv64" "target-features"="+64bit,+a,+c,+d,+f,+m,+relax,-e,-experimental-zawrs,-experimental-zca,-experimental-zcd,-experimental-zcf,-experimental-zihintntl,-experimental-ztso,-experimental-zvfh,-h,-save-restore,-svinval,-svnapot,-svpbmt,-v,-xtheadvdot,-xventanacondops,-zba,-zbb,-zbc,-zbkb,-zbkc,-zbkx,-zbs,-zdinx,-zfh,-zfhmin,-zfinx,-zhinx,-zhinxmin,-zicbom,-zicbop,-zicboz,-zihintpause,-zk,-zkn,-zknd,-zkne,-zknh,-zkr,-zks,-zksed,-zksh,-zkt,-zmmul,-zve32f,-zve32x,-zve64d,-zve64f,-zve64x,-zvl1024b,-zvl128b,-zvl16384b,-zvl2048b,-zvl256b,-zvl32768b,-zvl32b,-zvl4096b,-zvl512b,-zvl64b,-zvl65536b,-zvl8192b" }
attributes #1 = { "frame-pointer"="all" "no-builtins" "no-trapping-math"="true" "stack-protector-buffer-size"="8" "target-cpu"="generic-rv64" "target-features"="+64bit,+a,+c,+d,+f,+m,+relax,-e,-experimental-zawrs,-experimental-zca,-experimental-zcd,-experimental-zcf,-experimental-zihintntl,-experimental-ztso,-experimental-zvfh,-h,-save-restore,-svinval,-svnapot,-svpbmt,-v,-xtheadvdot,-xventanacondops,-zba,-zbb,-zbc,-zbkb,-zbkc,-zbkx,-zbs,-zdinx,-zfh,-zfhmin,-zfinx,-zhinx,-zhinxmin,-zicbom,-zicbop,-zicboz,-zihintpause,-zk,-zkn,-zknd,-zkne,-zknh,-zkr,-zks,-zksed,-zksh,-zkt,-zmmul,-zve32f,-zve32x,-zve64d,-zve64f,-zve64x,-zvl1024b,-zvl128b,-zvl16384b,-zvl2048b,-zvl256b,-zvl32768b,-zvl32b,-zvl4096b,-zvl512b,-zvl64b,-zvl65536b,-zvl8192b" }
attributes #2 = { nobuiltin "no-builtins" }

!llvm.module.flags = !{!0, !1, !2, !3, !4, !5}
!llvm.ident = !{!6}

!0 = !{i32 1, !"wchar_size", i32 4}
!1 = !{i32 1, !"target-abi", !"lp64d"}
!2 = !{i32 8, !"PIC Level", i32 2}
!3 = !{i32 7, !"PIE Level", i32 2}
!4 = !{i32 7, !"frame-pointer", i32 2}
!5 = !{i32 1, !"SmallDataLimit", i32 8}
!6 = !{!"Debian clang version 16.0.6 (15~deb12u1)"}
!7 = distinct !{!7, !8}
!8 = !{!"llvm.loop.mustprogress"}
!9 = distinct !{!9, !8}
!10 = distinct !{!10, !8}
