C     FIRST
      PROGRAM T
      I = 1
*     NEXT
      J = I + 2 - 5

      STOP
      END
