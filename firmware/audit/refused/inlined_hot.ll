; refused: attribute
; line: 19
target datalayout = "e-m:e-p270:32:32-p271:32:32-p272:64:64-i64:64-i128:128-f80:128-n8:16:32:64-S128"
target triple = "x86_64-unknown-linux-gnu"

define internal noundef i64 @"planted::twice"(i64 noundef %a0) #1 {
start:
  %r0 = shl i64 %a0, 1
  ret i64 %r0
}

define internal noundef i64 @"planted::calls"(i64 noundef %a0) #0 {
start:
  %r0 = call i64 @"planted::twice"(i64 %a0)
  ret i64 %r0
}

attributes #0 = { nounwind "probe-stack"="inline-asm" "stack-probe-size"="3072" "target-cpu"="x86-64-v2" }
attributes #1 = { alwaysinline hot nounwind "probe-stack"="inline-asm" "stack-probe-size"="3072" "target-cpu"="x86-64-v2" }
