;; The loop of loop_mixed.lua: @N turns. Like a compiler's code, it tests the number of turns once before the loop and then at its end.
(module
  (func (export "mixed") (result i64)
    (local $r0 i64) (local $r1 i64) (local $r3 i64) (local $r4 i64)
    (local $r5 i64) (local $r7 i64) (local $r8 i64) (local $r10 i64)
    (local.set $r0 (i64.const @N))
    (local.set $r1 (i64.const 1))
    (local.set $r5 (i64.const 13))
    (local.set $r7 (i64.const 1000000))
    (local.set $r8 (i64.const 1000003))
    (local.set $r10 (i64.const 7))
    (if (i64.ne (local.get $r0) (i64.const 0))
      (then
        (loop $turn
          (local.set $r4 (i64.mul (local.get $r0) (local.get $r5)))
          (local.set $r3 (i64.add (local.get $r3) (local.get $r4)))
          (if (i64.lt_s (local.get $r3) (local.get $r7))
            (then (local.set $r3 (i64.add (local.get $r3) (local.get $r1))))
            (else (local.set $r3 (i64.sub (local.get $r3) (local.get $r8)))))
          (if (i64.eq (local.get $r0) (local.get $r10))
            (then (local.set $r10 (i64.const 7))))
          (br_if $turn (i64.ne (local.tee $r0 (i64.sub (local.get $r0) (local.get $r1))) (i64.const 0))))))
    (local.get $r3)))
