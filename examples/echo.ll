; Copies the input to the output, byte by byte: echo.c, in the manner of clang 16.
; ModuleID = 'echo.c'
source_filename = "echo.c"
target datalayout = "e-m:e-p:64:64-i64:64-i128:128-n32:64-S128"
target triple = "riscv64-unknown-linux-gnu"

; Function Attrs: nounwind
define dso_local noundef signext i32 @main() local_unnamed_addr #0 {
  %1 = tail call signext i32 @getchar() #2
  %2 = icmp eq i32 %1, -1
  br i1 %2, label %8, label %3

3:                                                ; preds = %0, %3
  %4 = phi i32 [ %6, %3 ], [ %1, %0 ]
  %5 = tail call signext i32 @putchar(i32 noundef signext %4) #2
  %6 = tail call signext i32 @getchar() #2
  %7 = icmp eq i32 %6, -1
  br i1 %7, label %8, label %3, !llvm.loop !5

8:                                                ; preds = %3, %0
  ret i32 0
}

declare noundef signext i32 @getchar() local_unnamed_addr #1
declare noundef signext i32 @putchar(i32 noundef signext) local_unnamed_addr #1

attributes #0 = { nounwind "target-cpu"="generic-rv64" }
!llvm.module.flags = !{!0}
!0 = !{i32 1, !"wchar_size", i32 4}
!5 = distinct !{!5, !6}
