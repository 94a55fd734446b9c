! What each test program uses: it checks itself, and rank 0 says `No Errors` where no rank found any.
module checking
  use mpi
  implicit none
  private
  public :: check, finish
  integer :: faults = 0
contains
  subroutine check(is_so, what)
    logical, intent(in) :: is_so
    character(len=*), intent(in) :: what
    if (is_so) return
    faults = faults + 1
    print '(2a)', 'wrong: ', what
  end subroutine

  ! Ends the program's part of MPI.
  subroutine finish
    integer :: rank, all_faults, ierror
    call MPI_ALLREDUCE(faults, all_faults, 1, MPI_INTEGER, MPI_SUM, MPI_COMM_WORLD, ierror)
    call MPI_COMM_RANK(MPI_COMM_WORLD, rank, ierror)
    call MPI_FINALIZE(ierror)
    if (rank == 0 .and. all_faults == 0) print '(a)', 'No Errors'
  end subroutine
end module
