! The discount of a vehicle's haulier, in tenths of a percent; does not ask whether there is a haulier.
! In:  %o0 (r8) the vehicle's record.
! Out: %o0 the discount.

        ld      [%o0 + 8], %g1          ! 0  the haulier's record, or null
        lduh    [%g1 + 36], %o0         ! 1  an access at null and 36 bytes, if null
        retl                            ! 2
        nop                             ! 3  slot
