; accepted: a number and a flag are passed on
target datalayout = "e-m:e-p270:32:32-p271:32:32-p272:64:64-i64:64-i128:128-f80:128-n8:16:32:64-S128"
target triple = "x86_64-unknown-linux-gnu"

define internal noundef i64 @"planted::twice"(i64 noundef %a0, i1 noundef zeroext %a1) #0 {
start:
  %r0 = shl i64 %a0, 1
  ret i64 %r0
}

define internal void @"planted::calls"(i64 noundef %a0, ptr noundef %a1) #0 {
start:
  %r0 = call i64 @"planted::twice"(i64 %a0, i1 true)
  store i64 %r0, ptr %a1, align 8
  ret void
}

attributes #0 = { nounwind "probe-stack"="inline-asm" "stack-probe-size"="3072" "target-cpu"="x86-64-v2" }
