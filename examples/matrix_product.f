C     The product C of the matrices A and B.
      SUBROUTINE PRODUCT(L, M, N, A, B, C)
      INTEGER*8 L, M, N, A(L,M), B(M,N), C(L,N)
      DO J = 1, N
        DO I = 1, L
          C(I,J) = 0
          DO K = 1, M
            C(I,J) = C(I,J) + A(I,K)*B(K,J)
          END DO
        END DO
      END DO
      END
