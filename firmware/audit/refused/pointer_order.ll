; refused: pointer order
; line: 12
target datalayout = "e-m:e-p270:32:32-p271:32:32-p272:64:64-i64:64-i128:128-f80:128-n8:16:32:64-S128"
target triple = "x86_64-unknown-linux-gnu"

define internal void @"planted::order"() #0 {
start:
  %r0 = alloca [16 x i8], align 8
  br label %second

first:                                            ; preds = %second
  store i64 1, ptr %r1, align 8
  ret void

second:                                           ; preds = %start
  %r1 = getelementptr i8, ptr %r0, i64 8
  br label %first
}

attributes #0 = { nounwind "probe-stack"="inline-asm" "stack-probe-size"="3072" "target-cpu"="x86-64-v2" }
