; accepted: an access that states less than its width, which the core's code takes apart
target datalayout = "e-m:e-p270:32:32-p271:32:32-p272:64:64-i64:64-i128:128-f80:128-n8:16:32:64-S128"
target triple = "x86_64-unknown-linux-gnu"

define internal noundef i64 @"planted::sum"(ptr noundef %a0, i64 noundef %a1) #0 {
start:
  %r0 = load i64, ptr %a0, align 4
  %r1 = add nuw i64 %r0, %a1
  ret i64 %r1
}

attributes #0 = { nounwind "probe-stack"="inline-asm" "stack-probe-size"="3072" "target-cpu"="x86-64-v2" }
