; ModuleID = '<stdin>'
source_filename = "median.c"
target datalayout = "e-m:e-p:64:64-i64:64-i128:128-n32:64-S128"
target triple = "riscv64-unknown-linux-gnu"

@window = internal global [5 x i8] zeroinitializer, align 1

; Function Attrs: noinline nounwind
define dso_local signext i32 @main() #0 {
  %1 = call signext i32 @getchar() #2
  br label %2

2:                                                ; preds = %4, %0
  %.08 = phi i32 [ 0, %0 ], [ %8, %4 ]
  %3 = icmp slt i32 %.08, 5
  br i1 %3, label %4, label %9

4:                                                ; preds = %2
  %5 = trunc i32 %1 to i8
  %6 = sext i32 %.08 to i64
  %7 = getelementptr inbounds [5 x i8], ptr @window, i64 0, i64 %6
  store i8 %5, ptr %7, align 1
  %8 = add nsw i32 %.08, 1
  br label %2, !llvm.loop !7

9:                                                ; preds = %2, %11
  %.09 = phi i32 [ %18, %11 ], [ %1, %2 ]
  %.0 = phi i32 [ %20, %11 ], [ 0, %2 ]
  %10 = icmp ne i32 %.09, -1
  br i1 %10, label %11, label %21

11:                                               ; preds = %9
  %12 = trunc i32 %.09 to i8
  %13 = sext i32 %.0 to i64
  %14 = getelementptr inbounds [5 x i8], ptr @window, i64 0, i64 %13
  store i8 %12, ptr %14, align 1
  %15 = call zeroext i8 @median() #2
  %16 = zext i8 %15 to i32
  %17 = call signext i32 @putchar(i32 noundef signext %16) #2
  %18 = call signext i32 @getchar() #2
  %19 = add nsw i32 %.0, 1
  %20 = srem i32 %19, 5
  br label %9, !llvm.loop !9

21:                                               ; preds = %9
  ret i32 0
}

declare signext i32 @getchar() #1

declare signext i32 @putchar(i32 noundef signext) #1

; Function Attrs: noinline nounwind
define internal zeroext i8 @median() #0 {
  %1 = alloca [5 x i8], align 1
  br label %2

2:                                                ; preds = %.critedge, %0
  %.011 = phi i32 [ 0, %0 ], [ %30, %.critedge ]
  %3 = icmp slt i32 %.011, 5
  br i1 %3, label %4, label %31

4:                                                ; preds = %2, %17
  %.0 = phi i32 [ %24, %17 ], [ %.011, %2 ]
  %5 = icmp sgt i32 %.0, 0
  br i1 %5, label %6, label %.critedge

6:                                                ; preds = %4
  %7 = sub nsw i32 %.0, 1
  %8 = sext i32 %7 to i64
  %9 = getelementptr inbounds [5 x i8], ptr %1, i64 0, i64 %8
  %10 = load i8, ptr %9, align 1
  %11 = zext i8 %10 to i32
  %12 = sext i32 %.011 to i64
  %13 = getelementptr inbounds [5 x i8], ptr @window, i64 0, i64 %12
  %14 = load i8, ptr %13, align 1
  %15 = zext i8 %14 to i32
  %16 = icmp sgt i32 %11, %15
  br i1 %16, label %17, label %.critedge

17:                                               ; preds = %6
  %18 = sub nsw i32 %.0, 1
  %19 = sext i32 %18 to i64
  %20 = getelementptr inbounds [5 x i8], ptr %1, i64 0, i64 %19
  %21 = load i8, ptr %20, align 1
  %22 = sext i32 %.0 to i64
  %23 = getelementptr inbounds [5 x i8], ptr %1, i64 0, i64 %22
  store i8 %21, ptr %23, align 1
  %24 = add nsw i32 %.0, -1
  br label %4, !llvm.loop !10

.critedge:                                        ; preds = %4, %6
  %25 = sext i32 %.011 to i64
  %26 = getelementptr inbounds [5 x i8], ptr @window, i64 0, i64 %25
  %27 = load i8, ptr %26, align 1
  %28 = sext i32 %.0 to i64
  %29 = getelementptr inbounds [5 x i8], ptr %1, i64 0, i64 %28
  store i8 %27, ptr %29, align 1
  %30 = add nsw i32 %.011, 1
  br label %2, !llvm.loop !11

31:                                               ; preds = %2
  %32 = getelementptr inbounds [5 x i8], ptr %1, i64 0, i64 2
  %33 = load i8, ptr %32, align 1
  ret i8 %33
}

attributes #0 = { noinline nounwind "frame-pointer"="all" "no-builtins" "no-trapping-math"="true" "stack-protector-buffer-size"="8" "target-cpu"="generic-rv64" "target-features"="+64bit,+a,+c,+d,+f,+m,+relax,-e,-experimental-zawrs,-experimental-zca,-experimental-zcd,-experimental-zcf,-experimental-zihintntl,-experimental-ztso,-experimental-zvfh,-h,-save-restore,-svinval,-svnapot,-svpbmt,-v,-xtheadvdot,-xventanacondops,-zba,-zbb,-zbc,-zbkb,-zbkc,-zbkx,-zbs,-zdinx,-zfh,-zfhmin,-zfinx,-zhinx,-zhinxmin,-zicbom,-zicbop,-zicboz,-zihintpause,-zk,-zkn,-zknd,-zkne,-zknh,-zkr,-zks,-zksed,-zksh,-zkt,-zmmul,-zve32f,-zve32x,-zve64d,-zve64f,-zve64x,-zvl1024b,-zvl128b,-zvl16384b,-zvl2048b,-zvl256b,-zvl32768b,-zvl32b,-zvl4096b,-zvl512b,-zvl64b,-zvl65536b,-zvl8192b" }
attributes #1 = { "frame-pointer"="all" "no-builtins" "no-trapping-math"="true" "stack-protector-buffer-size"="8" "target-cpu"="generic-rv64" "target-features"="+64bit,+a,+c,+d,+f,+m,+relax,-e,-experimental-zawrs,-experimental-zca,-experimental-zcd,-experimental-zcf,-experimental-zihintntl,-experimental-ztso,-experimental-zvfh,-h,-save-restore,-svinval,-svnapot,-svpbmt,-v,-xtheadvdot,-xventanacondops,-zba,-zbb,-zbc,-zbkb,-zbkc,-zbkx,-zbs,-zdinx,-zfh,-zfhmin,-zfinx,-zhinx,-zhinxmin,-zicbom,-zicbop,-zicboz,-zihintpause,-zk,-zkn,-zknd,-zkne,-zknh,-zkr,-zks,-zksed,-zksh,-zkt,-zmmul,-zve32f,-zve32x,-zve64d,-zve64f,-zve64x,-zvl1024b,-zvl128b,-zvl16384b,-zvl2048b,-zvl256b,-zvl32768b,-zvl32b,-zvl4096b,-zvl512b,-zvl64b,-zvl65536b,-zvl8192b" }
attributes #2 = { nobuiltin "no-builtins" }

!llvm.module.flags = !{!0, !1, !2, !3, !4, !5}
!llvm.ident = !{!6}

!0 = !{i32 1, !"wchar_size", i32 4}
!1 = !{i32 1, !"target-abi", !"lp64d"}
!2 = !{i32 8, !"PIC Level", i32 2}
!3 = !{i32 7, !"PIE Level", i32 2}
!4 = !{i32 7, !"frame-pointer", i32 2}
!5 = !{i32 1, !"SmallDataLimit", i32 8}
!6 = !{!"Debian clang version 16.0.6 (15~deb12u1)"}
!7 = distinct !{!7, !8}
!8 = !{!"llvm.loop.mustprogress"}
!9 = distinct !{!9, !8}
!10 = distinct !{!10, !8}
!11 = distinct !{!11, !8}
