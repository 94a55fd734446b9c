! Attributes and handles that C and Fortran hand each other (MPI 3.1, 17.2.4, 17.2.7): the other half is with_c_functions.c.
program with_c
  use mpi
  use checking
  implicit none
  integer :: ierror, comm, again, keyval, set_by_c
  integer(kind=MPI_ADDRESS_KIND) :: value, address
  integer, external :: number_of_attribute, small_number_of_attribute, key_of_c, ignores
  logical :: flag
  call MPI_INIT(ierror)
  call MPI_COMM_DUP(MPI_COMM_SELF, comm, ierror)
  ! C sees the address of a number that Fortran set, and Fortran the address that C set.
  call MPI_COMM_CREATE_KEYVAL(MPI_COMM_DUP_FN, MPI_COMM_NULL_DELETE_FN, keyval, 0_MPI_ADDRESS_KIND, ierror)
  call MPI_COMM_SET_ATTR(comm, keyval, 42_MPI_ADDRESS_KIND, ierror)
  call check(number_of_attribute(comm, keyval) == 42, 'a number for C')
  call MPI_ATTR_PUT(comm, keyval, -3, ierror)
  call check(small_number_of_attribute(comm, keyval) == -3, 'a small one')
  call set_in_c(comm, keyval, address)
  call MPI_COMM_GET_ATTR(comm, keyval, value, flag, ierror)
  call check(flag .and. value == address, 'an address for Fortran')
  call MPI_COMM_DUP(comm, again, ierror)
  call MPI_COMM_GET_ATTR(again, keyval, value, flag, ierror)
  call check(flag .and. value == address, 'its copy')
  call MPI_COMM_FREE(again, ierror)
  ! A key that C made, whose function hands on what it gets.
  set_by_c = key_of_c()
  call MPI_COMM_SET_ATTR(comm, set_by_c, 77_MPI_ADDRESS_KIND, ierror)
  call MPI_COMM_DUP(comm, again, ierror)
  call MPI_COMM_FREE(comm, ierror)
  call MPI_COMM_GET_ATTR(again, set_by_c, value, flag, ierror)
  call check(flag .and. value == 77, 'a number that a function of C copied')
  call check(number_of_attribute(again, set_by_c) == 77, 'it for C')
  call MPI_COMM_FREE(again, ierror)
  call check(ignores(MPI_STATUS_IGNORE, MPI_STATUSES_IGNORE) == 1, 'statuses that are ignored, for C')
  call finish
end program
