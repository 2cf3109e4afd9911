! A Fortran program that hangs: rank 2 never leaves a loop, and the others wait for it in a reduction.
module work
contains
  subroutine relax(rank)
    integer, intent(in) :: rank
    integer :: i
    i = 0
    do while (rank >= 0)
      i = ieor(i, rank)
    end do
  end subroutine

  subroutine step(rank, different)
    use mpi
    integer, intent(in) :: rank, different
    integer :: error
    real(8) :: mine(4), all(4)
    mine = rank
    if (rank == different) call relax(rank)
    call MPI_Allreduce(mine, all, 4, MPI_DOUBLE_PRECISION, MPI_SUM, MPI_COMM_WORLD, error)
  end subroutine
end module

program hang
  use mpi
  use work
  integer :: error, rank
  call MPI_Init(error)
  call MPI_Comm_rank(MPI_COMM_WORLD, rank, error)
  print '(a, i0)', 'rank ', rank
  flush (6)
  call step(rank, 2)
  call MPI_Finalize(error)
end program
