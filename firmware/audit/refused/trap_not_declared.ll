; refused: callee
; line: 21
target datalayout = "e-m:e-p270:32:32-p271:32:32-p272:64:64-i64:64-i128:128-f80:128-n8:16:32:64-S128"
target triple = "x86_64-unknown-linux-gnu"

define noundef i64 @planted_half(i64 noundef %a0, i64 noundef %a1) #0 {
start:
  %r0 = alloca i8, align 1
  %r1 = icmp ult i64 %a0, %a1
  %r2 = zext i1 %r1 to i8
  store i8 %r2, ptr %r0, align 1
  %r3 = load i8, ptr %r0, align 1, !range !1, !noundef !2
  %r4 = trunc nuw i8 %r3 to i1
  br i1 %r4, label %then.1, label %else.2

then.1:                                           ; preds = %start
  %r5 = udiv i64 %a0, 2
  ret i64 %r5

else.2:                                           ; preds = %start
  call void @llvm.trap()
  unreachable
}

; Function Attrs: cold noreturn nounwind memory(inaccessiblemem: write)

attributes #0 = { nounwind "probe-stack"="inline-asm" "stack-probe-size"="3072" "target-cpu"="x86-64-v2" }
attributes #2 = { cold noreturn nounwind memory(inaccessiblemem: write) }

!llvm.ident = !{!0}

!0 = !{!"planted"}
!1 = !{i8 0, i8 2}
!2 = !{}
