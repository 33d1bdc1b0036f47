C     Limits of the editor, which other programs read
      PROGRAM LIMITS
C     lines and columns
      MaxLin = 66
      MAXCOL = MAXLIN + 00066

*     the least and the greatest integer
      MAXINT = 2147483647
      MININT = -MAXINT - 1
      NFILES = 1
      LINENO = NFILES - 1
      NFILES = NFILES + 3
      STOP
      END
