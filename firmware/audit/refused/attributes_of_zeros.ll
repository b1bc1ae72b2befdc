; refused: attribute group
; line: 6
target datalayout = "e-m:e-p270:32:32-p271:32:32-p272:64:64-i64:64-i128:128-f80:128-n8:16:32:64-S128"
target triple = "x86_64-unknown-linux-gnu"

define internal noundef i32 @"planted::zeros"(i16 noundef %a0) #3 {
start:
  %r0 = call i16 @llvm.ctlz.i16(i16 %a0, i1 false)
  %r1 = zext i16 %r0 to i32
  ret i32 %r1
}

; Function Attrs: nocallback nofree nosync nounwind speculatable willreturn memory(none)
declare i16 @llvm.ctlz.i16(i16, i1 immarg) #3

attributes #0 = { nounwind "probe-stack"="inline-asm" "stack-probe-size"="3072" "target-cpu"="x86-64-v2" }
attributes #3 = { nocallback nofree nosync nounwind speculatable willreturn memory(none) }
