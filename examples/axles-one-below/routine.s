! Charges a vehicle axle by axle, each load at the rate of its class, and writes gross, heaviest load and charge on the ticket.
! In:  %o0 (r8) ten axle loads in divisions of 20 kg, %o1 (r9) the tariff, %o2 (r10) the ticket, %sp (r14) the frame.
! Out: %o0 the charge in cents.
! In scratch words, since the loop needs all of %g1 to %g7 and %o0 to %o5:
!      [%sp+92] the ticket, [%sp+100] the gross weight so far, [%sp+104] the heaviest load so far.

        st      %o2, [%sp+92]           ! 0
        ld      [%o1], %g1              ! 1  the classes' limits; the fourth has none
        ld      [%o1+4], %g2            ! 2
        ld      [%o1+8], %g3            ! 3
        ld      [%o1+12], %g4           ! 4  their rates: cents for each division
        ld      [%o1+16], %g5           ! 5
        ld      [%o1+20], %g6           ! 6
        ld      [%o1+24], %g7           ! 7
        st      %g0, [%sp+100]          ! 8
        st      %g0, [%sp+104]          ! 9
        clr     %o1                     ! 10 the axle's offset in the loads: 0, 4, .. 36
        clr     %o2                     ! 11 the charge

next:   ld      [%o0 + %o1], %o3        ! 12 an axle load
        ld      [%sp+100], %o5          ! 13
        add     %o5, %o3, %o5           ! 14
        st      %o5, [%sp+100]          ! 15
        ld      [%sp+104], %o5          ! 16
        cmp     %o3, %o5                ! 17
        bg,a    class                   ! 18
        st      %o3, [%sp+104]          ! 19 slot, skipped unless this load is heavier

! The rate of its class.
class:  cmp     %o3, %g1                ! 20
        ble     times                   ! 21
        mov     %g4, %o4                ! 22 slot: the first class's rate, on either way
        cmp     %o3, %g2                ! 23
        ble     times                   ! 24
        mov     %g5, %o4                ! 25 slot
        cmp     %o3, %g3                ! 26
        ble     times                   ! 27
        mov     %g6, %o4                ! 28 slot
        mov     %g7, %o4                ! 29

! Load times rate, a bit of the load at a time.
times:  andcc   %o3, 1, %g0             ! 30
        be      even                    ! 31
        srl     %o3, 1, %o3             ! 32 slot: the next bit
        add     %o2, %o4, %o2           ! 33
even:   cmp     %o3, 0                  ! 34
        bne     times                   ! 35
        sll     %o4, 1, %o4             ! 36 slot: the rate for that bit

        cmp     %o1, 36                 ! 37 was it the last axle?
        bl,a    next                    ! 38
        add     %o1, 4, %o1             ! 39 slot, skipped after the last axle

! The ticket.
        ld      [%sp+92], %o1           ! 40
        ld      [%sp+100], %o3          ! 41
        st      %o3, [%o1]              ! 42 gross
        ld      [%sp+104], %o3          ! 43
        st      %o3, [%o1+4]            ! 44 heaviest
        st      %o2, [%o1+8]            ! 45 charge
        retl                            ! 46
        mov     %o2, %o0                ! 47 slot
