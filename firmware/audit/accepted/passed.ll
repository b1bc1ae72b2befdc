; accepted: an address within lent memory is passed on
target datalayout = "e-m:e-p270:32:32-p271:32:32-p272:64:64-i64:64-i128:128-f80:128-n8:16:32:64-S128"
target triple = "x86_64-unknown-linux-gnu"

define internal noundef i64 @"planted::reads"(ptr noundef %a0) #0 {
start:
  %r0 = getelementptr i8, ptr %a0, i64 8
  %r1 = load i64, ptr %r0, align 8
  ret i64 %r1
}

define internal noundef i64 @"planted::passes"(ptr noundef %a0, i64 noundef %a1) #0 {
start:
  %r0 = alloca ptr, align 8
  store ptr %a0, ptr %r0, align 8
  %r1 = load ptr, ptr %r0, align 8
  %r2 = getelementptr inbounds nuw i8, ptr %r1, i64 %a1
  %r3 = call i64 @"planted::reads"(ptr %r2)
  ret i64 %r3
}

attributes #0 = { nounwind "probe-stack"="inline-asm" "stack-probe-size"="3072" "target-cpu"="x86-64-v2" }
