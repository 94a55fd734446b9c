! Communicators, groups, texts, Info, error handlers and codes (MPI 3.1, 6, 8, 9); four ranks.
module handlers
  use mpi
  implicit none
  integer :: told_comm = MPI_COMM_NULL, told_code = MPI_SUCCESS
contains
  subroutine handle(comm, code)
    integer :: comm, code
    told_comm = comm
    told_code = code
  end subroutine
end module

program communicators
  use mpi
  use checking
  use handlers
  implicit none
  integer :: rank, n, ierror
  call MPI_INIT_THREAD(MPI_THREAD_FUNNELED, n, ierror)
  call check(n == MPI_THREAD_FUNNELED, 'the level of threads')
  call MPI_COMM_RANK(MPI_COMM_WORLD, rank, ierror)
  call MPI_COMM_SIZE(MPI_COMM_WORLD, n, ierror)
  call parts
  call groups
  call names
  call infos
  call errors
  call codes
  call surroundings
  call unsupported
  call finish
contains

  subroutine parts
    integer :: half, copy, other, size, answer, request
    logical :: flag
    call MPI_COMM_SPLIT(MPI_COMM_WORLD, mod(rank, 2), -rank, half, ierror)
    call MPI_COMM_SIZE(half, size, ierror)
    call MPI_COMM_RANK(half, answer, ierror)
    call check(size == 2 .and. answer == merge(1, 0, rank < 2), 'a half, the other way round')
    call MPI_COMM_DUP(half, copy, ierror)
    call MPI_COMM_COMPARE(half, copy, answer, ierror)
    call check(answer == MPI_CONGRUENT, 'a copy')
    call MPI_COMM_TEST_INTER(copy, flag, ierror)
    call check(.not. flag, 'no intercommunicator')
    call MPI_COMM_SPLIT(MPI_COMM_WORLD, merge(MPI_UNDEFINED, 0, rank == 0), 0, other, ierror)
    call check((rank == 0) .eqv. (other == MPI_COMM_NULL), 'in no part')
    if (rank /= 0) call MPI_COMM_FREE(other, ierror)
    call MPI_COMM_FREE(half, ierror)
    call MPI_COMM_FREE(copy, ierror)
    call check(half == MPI_COMM_NULL, 'it is freed')
    call MPI_COMM_IDUP(MPI_COMM_WORLD, copy, request, ierror)
    call MPI_WAIT(request, MPI_STATUS_IGNORE, ierror)
    call MPI_COMM_SIZE(copy, size, ierror)
    call check(size == n, 'a copy that is not waited for at once')
    call MPI_COMM_FREE(copy, ierror)
  end subroutine

  subroutine groups
    integer :: world, own, ranges(3, 1), answer, there(2)
    call MPI_COMM_GROUP(MPI_COMM_WORLD, world, ierror)
    ranges(:, 1) = [3, 1, -2]
    call MPI_GROUP_RANGE_INCL(world, 1, ranges, own, ierror)
    call MPI_GROUP_TRANSLATE_RANKS(own, 2, [0, 1], world, there, ierror)
    call check(all(there == [3, 1]), 'ranges are columns')
    call MPI_GROUP_RANK(own, answer, ierror)
    call check(mod(rank, 2) == 1 .or. answer == MPI_UNDEFINED, 'not in the group')
    call MPI_GROUP_FREE(own, ierror)
    call MPI_GROUP_FREE(world, ierror)
    call check(world == MPI_GROUP_NULL, 'it is freed')
  end subroutine

  subroutine names
    character(len=MPI_MAX_OBJECT_NAME) :: name
    character(len=4) :: short
    integer :: length, copy
    call MPI_COMM_GET_NAME(MPI_COMM_WORLD, name, length, ierror)
    call check(name == 'MPI_COMM_WORLD' .and. length == 14, 'a name')
    call MPI_COMM_DUP(MPI_COMM_SELF, copy, ierror)
    call MPI_COMM_SET_NAME(copy, 'of my own   ', ierror)
    name = repeat('x', len(name))
    call MPI_COMM_GET_NAME(copy, name, length, ierror)
    call check(name == 'of my own' .and. length == 9, 'an own name, and blanks behind it')
    call MPI_COMM_GET_NAME(copy, short, length, ierror)
    call check(short == 'of m', 'as much of it as fits')
    call MPI_COMM_FREE(copy, ierror)
  end subroutine

  subroutine infos
    integer :: info, count, length
    logical :: flag
    character(len=20) :: value
    character(len=MPI_MAX_INFO_KEY) :: key
    call MPI_INFO_CREATE(info, ierror)
    call MPI_INFO_SET(info, '  where ', '  here and there  ', ierror)
    call MPI_INFO_GET_NKEYS(info, count, ierror)
    call MPI_INFO_GET_NTHKEY(info, 0, key, ierror)
    call check(count == 1 .and. key == 'where', 'a key without blanks')
    call MPI_INFO_GET_VALUELEN(info, 'where', length, flag, ierror)
    call check(flag .and. length == 14, 'how long its value is')
    value = repeat('x', 20)
    call MPI_INFO_GET(info, ' where', 20, value, flag, ierror)
    call check(flag .and. value == 'here and there', 'its value, with blanks behind it')
    call MPI_INFO_GET(info, 'where', 4, value, flag, ierror)
    call check(flag .and. value == 'here', 'the beginning of its value')
    length = 20
    call MPI_INFO_GET_STRING(info, 'where', length, value, flag, ierror)
    call check(flag .and. length == 14 .and. value == 'here and there', 'the same of MPI 4')
    call MPI_INFO_GET(info, 'nowhere', 20, value, flag, ierror)
    call check(.not. flag .and. value == 'here and there', 'no such key')
    call MPI_INFO_DELETE(info, 'where', ierror)
    call MPI_INFO_FREE(info, ierror)
    call check(info == MPI_INFO_NULL, 'it is freed')
  end subroutine

  subroutine errors
    integer :: handler, copy, code, class, length
    character(len=MPI_MAX_ERROR_STRING) :: text
    call MPI_COMM_DUP(MPI_COMM_SELF, copy, ierror)
    call MPI_COMM_SET_ERRHANDLER(copy, MPI_ERRORS_RETURN, ierror)
    call MPI_COMM_CREATE_ERRHANDLER(handle, handler, ierror)
    call MPI_COMM_SET_ERRHANDLER(copy, handler, ierror)
    call MPI_ERRHANDLER_FREE(handler, ierror)
    call check(handler == MPI_ERRHANDLER_NULL, 'it is freed')
    call MPI_SEND(rank, 1, MPI_INTEGER, 7, 0, copy, code)
    call MPI_ERROR_CLASS(code, class, ierror)
    call check(class == MPI_ERR_RANK, 'the class of an error')
    call check(told_comm == copy .and. told_code == code, 'an own handler')
    call MPI_ERROR_STRING(code, text, length, ierror)
    call check(length > 5 .and. len_trim(text) == length, 'what an error is in words')
    call MPI_COMM_FREE(copy, ierror)
  end subroutine

  subroutine codes
    integer :: class, code, of, length
    integer(kind=MPI_ADDRESS_KIND) :: last
    character(len=MPI_MAX_ERROR_STRING) :: text
    logical :: flag
    call MPI_ADD_ERROR_CLASS(class, ierror)
    call MPI_ADD_ERROR_CODE(class, code, ierror)
    call MPI_ADD_ERROR_STRING(code, 'an error of mine   ', ierror)
    call MPI_ERROR_CLASS(code, of, ierror)
    call MPI_ERROR_STRING(code, text, length, ierror)
    call check(of == class .and. text == 'an error of mine' .and. length == 16, 'an own code')
    call MPI_COMM_GET_ATTR(MPI_COMM_WORLD, MPI_LASTUSEDCODE, last, flag, ierror)
    call check(flag .and. last == code, 'the last code')
  end subroutine

  subroutine surroundings
    character(len=MPI_MAX_LIBRARY_VERSION_STRING) :: text
    integer :: length, version, subversion
    logical :: flag
    real(8) :: before
    integer(kind=MPI_ADDRESS_KIND) :: address
    call MPI_GET_LIBRARY_VERSION(text, length, ierror)
    call check(text(1:9) == 'Kombazily' .and. len_trim(text) == length, 'the version of the library')
    call MPI_GET_VERSION(version, subversion, ierror)
    call check(version == MPI_VERSION .and. subversion == MPI_SUBVERSION, 'the version of MPI')
    call MPI_INITIALIZED(flag, ierror)
    call check(flag, 'it has begun')
    before = MPI_WTIME()
    call check(PMPI_WTIME() >= before .and. MPI_WTICK() > 0, 'the time')
    call PMPI_COMM_SIZE(MPI_COMM_WORLD, length, ierror)
    call check(length == n, 'second names')
    call MPI_ALLOC_MEM(80_MPI_ADDRESS_KIND, MPI_INFO_NULL, address, ierror)
    call check(ierror == MPI_SUCCESS .and. address /= 0, 'memory')
    call give_back(address)
    call MPI_PCONTROL(1)
  end subroutine

  subroutine give_back(address)
    use, intrinsic :: iso_c_binding
    integer(kind=MPI_ADDRESS_KIND) :: address
    type(c_ptr) :: pointer
    real(8), pointer :: x(:)
    call c_f_pointer(transfer(address, c_null_ptr), x, [10])
    x = 1
    call MPI_FREE_MEM(x, ierror)
    call MPI_ALLOC_MEM(80_MPI_ADDRESS_KIND, MPI_INFO_NULL, pointer, ierror)
    call c_f_pointer(pointer, x, [10])
    x = 2
    call MPI_FREE_MEM(x, ierror)
  end subroutine

  subroutine unsupported
    integer :: file, code, class, win, comm
    call MPI_FILE_OPEN(MPI_COMM_SELF, 'nowhere', MPI_MODE_RDONLY, MPI_INFO_NULL, file, code)
    call MPI_ERROR_CLASS(code, class, ierror)
    call check(class == MPI_ERR_UNSUPPORTED_OPERATION .and. file == MPI_FILE_NULL, 'files')
    call MPI_COMM_DUP(MPI_COMM_SELF, comm, ierror)
    call MPI_COMM_SET_ERRHANDLER(comm, MPI_ERRORS_RETURN, ierror)
    call MPI_WIN_CREATE(n, 4_MPI_ADDRESS_KIND, 4, MPI_INFO_NULL, comm, win, code)
    call check(code == MPI_ERR_UNSUPPORTED_OPERATION .and. win == MPI_WIN_NULL, 'windows')
    call MPI_COMM_SPAWN('nowhere', MPI_ARGV_NULL, 1, MPI_INFO_NULL, 0, comm, file, MPI_ERRCODES_IGNORE, code)
    call check(code == MPI_ERR_UNSUPPORTED_OPERATION .and. file == MPI_COMM_NULL, 'processes')
    call MPI_COMM_FREE(comm, ierror)
    call MPI_COMM_GET_PARENT(comm, ierror)
    call check(comm == MPI_COMM_NULL, 'no parent')
  end subroutine
end program
