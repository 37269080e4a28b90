; ModuleID = '<stdin>'
source_filename = "heater.c"
target datalayout = "e-m:e-p:64:64-i64:64-i128:128-n32:64-S128"
target triple = "riscv64-unknown-linux-gnu"

; Function Attrs: noinline nounwind
define dso_local signext i32 @main() #0 {
  %1 = alloca i32, align 4
  store i32 0, ptr %1, align 4
  %2 = call signext i32 @getchar() #2
  br label %3

3:                                                ; preds = %5, %0
  %.0 = phi i32 [ %2, %0 ], [ %7, %5 ]
  switch i32 %.0, label %5 [
    i32 -1, label %8
    i32 0, label %4
    i32 255, label %4
  ]

4:                                                ; preds = %3, %3
  call void @put_power(i32 noundef signext 0) #2
  br label %8

5:                                                ; preds = %3
  %6 = call signext i32 @power_at(i32 noundef signext %.0, ptr noundef %1) #2
  call void @put_power(i32 noundef signext %6) #2
  %7 = call signext i32 @getchar() #2
  br label %3, !llvm.loop !7

8:                                                ; preds = %3, %4
  %.05 = phi i32 [ 1, %4 ], [ 0, %3 ]
  ret i32 %.05
}

declare signext i32 @getchar() #1

; Function Attrs: noinline nounwind
define internal void @put_power(i32 noundef signext %0) #0 {
  call void @put_number(i32 noundef signext %0) #2
  %2 = call signext i32 @putchar(i32 noundef signext 10) #2
  ret void
}

; Function Attrs: noinline nounwind
define internal signext i32 @power_at(i32 noundef signext %0, ptr noundef %1) #0 {
  %3 = sub nsw i32 60, %0
  %4 = mul nsw i32 24, %3
  %5 = load i32, ptr %1, align 4
  %6 = add nsw i32 %5, %3
  %7 = mul nsw i32 2, %6
  %8 = add nsw i32 %4, %7
  %9 = sdiv i32 %8, 16
  %10 = icmp slt i32 %9, 0
  br i1 %10, label %16, label %11

11:                                               ; preds = %2
  %12 = icmp sgt i32 %9, 100
  br i1 %12, label %16, label %13

13:                                               ; preds = %11
  %14 = load i32, ptr %1, align 4
  %15 = add nsw i32 %14, %3
  store i32 %15, ptr %1, align 4
  br label %16

16:                                               ; preds = %11, %2, %13
  %.0 = phi i32 [ %9, %13 ], [ 0, %2 ], [ 100, %11 ]
  ret i32 %.0
}

; Function Attrs: noinline nounwind
define internal void @put_number(i32 noundef signext %0) #0 {
  %2 = icmp sge i32 %0, 10
  br i1 %2, label %3, label %5

3:                                                ; preds = %1
  %4 = sdiv i32 %0, 10
  call void @put_number(i32 noundef signext %4) #2
  br label %5

5:                                                ; preds = %3, %1
  %6 = srem i32 %0, 10
  %7 = add nsw i32 48, %6
  %8 = call signext i32 @putchar(i32 noundef signext %7) #2
  ret void
}

declare signext i32 @putchar(i32 noundef signext) #1

attributes #0 = { noinline nounwind "frame-pointer"="all" "no-builtins" "no-trapping-math"="true" "stack-protector-buffer-size"="8" "target-cpu"="generic-rv64" "target-features"="+64bit,+a,+c,+d,+f,+m,+relax,-e,-experimental-zawrs,-experimental-zca,-experimental-zcd,-experimental-zcf,-experimental-zihintntl,-experimental-ztso,-experimental-zvfh,-h,-save-restore,-svinval,-svnapot,-svpbmt,-v,-xtheadvdot,-xventanacondops,-zba,-zbb,-zbc,-zbkb,-zbkc,-zbkx,-zbs,-zdinx,-zfh,-zfhmin,-zfinx,-zhinx,-zhinxmin,-zicbom,-zicbop,-zicboz,-zihintpause,-zk,-zkn,-zknd,-zkne,-zknh,-zkr,-zks,-zksed,-zksh,-zkt,-zmmul,-zve32f,-zve32x,-zve64d,-zve64f,-zve64x,-zvl1024b,-zvl128b,-zvl16384b,-zvl2048b,-zvl256b,-zvl32768b,-zvl32b,-zvl4096b,-zvl512b,-zvl64b,-zvl65536b,-zvl8192b" }
attributes #1 = { "frame-pointer"="all" "no-builtins" "no-trapping-math"="true" "stack-protector-buffer-size"="8" "target-cpu"="generic-rv64" "target-features"="+64bit,+a,+c,+d,+f,+m,+relax,-e,-experimental-zawrs,-experimental-zca,-experimental-zcd,-experimental-zcf,-experimental-zihintntl,-experimental-ztso,-experimental-zvfh,-h,-save-restore,-svinval,-svnapot,-svpbmt,-v,-xtheadvdot,-xventanacondops,-zba,-zbb,-zbc,-zbkb,-zbkc,-zbkx,-zbs,-zdinx,-zfh,-zfhmin,-zfinx,-zhinx,-zhinxmin,-zicbom,-zicbop,-zicboz,-zihintpause,-zk,-zkn,-zknd,-zkne,-zknh,-zkr,-zks,-zksed,-zksh,-zkt,-zmmul,-zve32f,-zve32x,-zve64d,-zve64f,-zve64x,-zvl1024b,-zvl128b,-zvl16384b,-zvl2048b,-zvl256b,-zvl32768b,-zvl32b,-zvl4096b,-zvl512b,-zvl64b,-zvl65536b,-zvl8192b" }
attributes #2 = { nobuiltin "no-builtins" }

!llvm.module.flags = !{!0, !1, !2, !3, !4, !5}
!llvm.ident = !{!6}

!0 = !{i32 1, !"wchar_size", i32 4}
!1 = !{i32 1, !"target-abi", !"lp64d"}
!2 = !{i32 8, !"PIC Level", i32 2}
!3 = !{i32 7, !"PIE Level", i32 2}
!4 = !{i32 7, !"frame-pointer", i32 2}
!5 = !{i32 1, !"SmallDataLimit", i32 8}
!6 = !{!"Debian clang version 16.0.6 (15~deb12u1)"}
!7 = distinct !{!7, !8}
!8 = !{!"llvm.loop.mustprogress"}
