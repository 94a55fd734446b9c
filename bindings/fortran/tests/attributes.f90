! Attributes (MPI 3.1, 6.7, 17.2.7): functions in Fortran, numbers of the size of an address; two ranks.
module functions
  use mpi
  implicit none
  integer :: copies = 0, deletions = 0
contains
  subroutine copy(comm, keyval, extra_state, in, out, flag, ierror)
    integer :: comm, keyval, ierror
    integer(kind=MPI_ADDRESS_KIND) :: extra_state, in, out
    logical :: flag
    copies = copies + 1
    out = in + extra_state
    flag = comm /= MPI_COMM_NULL .and. keyval /= MPI_KEYVAL_INVALID
    ierror = MPI_SUCCESS
  end subroutine

  subroutine delete(comm, keyval, value, extra_state, ierror)
    integer :: comm, keyval, ierror
    integer(kind=MPI_ADDRESS_KIND) :: value, extra_state
    deletions = deletions + int(extra_state)
    ierror = merge(MPI_SUCCESS, MPI_ERR_ARG, value > 0 .and. comm /= MPI_COMM_NULL .and. keyval /= MPI_KEYVAL_INVALID)
  end subroutine
end module

program attributes
  use mpi
  use checking
  use functions
  implicit none
  integer(kind=MPI_ADDRESS_KIND), parameter :: large = 2_MPI_ADDRESS_KIND ** 40
  integer :: ierror
  call MPI_INIT(ierror)
  call of_library
  call of_communicators
  call of_types
  call functions_of_library
  call finish
contains

  subroutine of_library
    integer(kind=MPI_ADDRESS_KIND) :: value
    integer :: small
    logical :: flag
    call MPI_COMM_GET_ATTR(MPI_COMM_WORLD, MPI_TAG_UB, value, flag, ierror)
    call check(flag .and. value == huge(0), 'the largest tag')
    call MPI_ATTR_GET(MPI_COMM_WORLD, MPI_UNIVERSE_SIZE, small, flag, ierror)
    call check(flag .and. small == 2, 'the size of the universe')
    call MPI_COMM_GET_ATTR(MPI_COMM_WORLD, MPI_APPNUM, value, flag, ierror)
    call check(.not. flag, 'what is not known')
  end subroutine

  subroutine of_communicators
    integer :: keyval, comm, again
    integer(kind=MPI_ADDRESS_KIND) :: value
    logical :: flag
    call MPI_COMM_CREATE_KEYVAL(copy, delete, keyval, 1000_MPI_ADDRESS_KIND, ierror)
    call MPI_COMM_DUP(MPI_COMM_SELF, comm, ierror)
    call MPI_COMM_GET_ATTR(comm, keyval, value, flag, ierror)
    call check(.not. flag, 'no value yet')
    call MPI_COMM_SET_ATTR(comm, keyval, large, ierror)
    call MPI_COMM_GET_ATTR(comm, keyval, value, flag, ierror)
    call check(flag .and. value == large, 'a value')
    call MPI_COMM_DUP(comm, again, ierror)
    call MPI_COMM_GET_ATTR(again, keyval, value, flag, ierror)
    call check(copies == 1 .and. flag .and. value == large + 1000, 'a copy, by its function')
    call MPI_COMM_SET_ATTR(again, keyval, 5_MPI_ADDRESS_KIND, ierror)
    call check(deletions == 1000, 'another value: the first is deleted')
    call MPI_COMM_FREE(again, ierror)
    call MPI_COMM_DELETE_ATTR(comm, keyval, ierror)
    call check(deletions == 3000, 'deleted')
    call MPI_COMM_SET_ATTR(comm, keyval, -1_MPI_ADDRESS_KIND, ierror)
    call MPI_COMM_SET_ERRHANDLER(MPI_COMM_WORLD, MPI_ERRORS_RETURN, ierror)
    call MPI_COMM_SET_ERRHANDLER(comm, MPI_ERRORS_RETURN, ierror)
    call MPI_COMM_FREE(comm, ierror)
    call check(ierror /= MPI_SUCCESS .and. comm /= MPI_COMM_NULL, 'a function that fails: it is not freed')
    call MPI_COMM_FREE_KEYVAL(keyval, ierror)
    call check(keyval == MPI_KEYVAL_INVALID, 'the key is freed')
  end subroutine

  subroutine of_types
    integer :: keyval, type, again
    integer(kind=MPI_ADDRESS_KIND) :: value
    logical :: flag
    copies = 0
    deletions = 0
    call MPI_TYPE_CREATE_KEYVAL(copy, delete, keyval, 1_MPI_ADDRESS_KIND, ierror)
    call MPI_TYPE_CONTIGUOUS(3, MPI_INTEGER, type, ierror)
    call MPI_TYPE_SET_ATTR(type, keyval, large, ierror)
    call MPI_TYPE_DUP(type, again, ierror)
    call MPI_TYPE_GET_ATTR(again, keyval, value, flag, ierror)
    call check(copies == 1 .and. flag .and. value == large + 1, 'a value of a type')
    call MPI_TYPE_FREE(type, ierror)
    call MPI_TYPE_FREE(again, ierror)
    call check(deletions == 2, 'both are deleted')
    call MPI_TYPE_FREE_KEYVAL(keyval, ierror)
  end subroutine

  subroutine functions_of_library
    integer :: kept, dropped, comm, again
    integer(kind=MPI_ADDRESS_KIND) :: value
    logical :: flag
    call MPI_COMM_CREATE_KEYVAL(MPI_COMM_DUP_FN, MPI_COMM_NULL_DELETE_FN, kept, 0_MPI_ADDRESS_KIND, ierror)
    call MPI_COMM_CREATE_KEYVAL(MPI_COMM_NULL_COPY_FN, MPI_COMM_NULL_DELETE_FN, dropped, 0_MPI_ADDRESS_KIND, ierror)
    call MPI_COMM_DUP(MPI_COMM_SELF, comm, ierror)
    call MPI_COMM_SET_ATTR(comm, kept, large + 7, ierror)
    call MPI_COMM_SET_ATTR(comm, dropped, large + 8, ierror)
    call MPI_COMM_DUP(comm, again, ierror)
    call MPI_COMM_FREE(comm, ierror)
    call MPI_COMM_GET_ATTR(again, kept, value, flag, ierror)
    call check(flag .and. value == large + 7, 'a value that copies have')
    call MPI_COMM_GET_ATTR(again, dropped, value, flag, ierror)
    call check(.not. flag, 'one that they do not have')
    call MPI_COMM_FREE(again, ierror)
  end subroutine
end program
