; refused: global
; line: 7
target datalayout = "e-m:e-p270:32:32-p271:32:32-p272:64:64-i64:64-i128:128-f80:128-n8:16:32:64-S128"
target triple = "x86_64-unknown-linux-gnu"

@static.0 = private unnamed_addr constant [4 x i8] c"\00\01\22a", align 2
@static.1 = private unnamed_addr constant [2 x i16] zeroinitializer, align 2

define internal noundef i16 @"planted::constant"(i64 noundef %a0) #0 {
start:
  %r0 = alloca ptr, align 8
  store ptr @static.0, ptr %r0, align 8
  %r1 = load ptr, ptr %r0, align 8
  %r2 = getelementptr inbounds nuw i8, ptr %r1, i64 %a0
  %r3 = load i16, ptr %r2, align 2
  ret i16 %r3
}

attributes #0 = { nounwind "probe-stack"="inline-asm" "stack-probe-size"="3072" "target-cpu"="x86-64-v2" }
