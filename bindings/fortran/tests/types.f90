! Types (MPI 3.1, 4, 17.1.9): places in arrays, addresses and MPI_BOTTOM, contents, packing, sizes; two ranks.
program types
  use mpi
  use checking
  implicit none
  integer :: rank, ierror
  call MPI_INIT(ierror)
  call MPI_COMM_RANK(MPI_COMM_WORLD, rank, ierror)
  call columns_and_rows
  call by_addresses
  call contents
  call packing
  call sizes
  call by_precision
  call names
  call finish
contains

  subroutine columns_and_rows
    integer :: a(4, 3), row, corner, got(3), part(4), i, status(MPI_STATUS_SIZE)
    a = reshape([(i, i = 1, 12)], [4, 3])
    call MPI_TYPE_VECTOR(3, 1, 4, MPI_INTEGER, row, ierror)
    call MPI_TYPE_COMMIT(row, ierror)
    call MPI_SENDRECV(a(2, 1), 1, row, rank, 0, got, 3, MPI_INTEGER, rank, 0, MPI_COMM_WORLD, status, ierror)
    call check(all(got == [2, 6, 10]), 'a row')
    call MPI_TYPE_CREATE_SUBARRAY(2, [4, 3], [2, 2], [1, 1], MPI_ORDER_FORTRAN, MPI_INTEGER, corner, ierror)
    call MPI_TYPE_COMMIT(corner, ierror)
    call MPI_SENDRECV(a, 1, corner, rank, 0, part, 4, MPI_INTEGER, rank, 0, MPI_COMM_WORLD, status, ierror)
    call check(all(part == [6, 7, 10, 11]), 'a part')
    call MPI_TYPE_FREE(row, ierror)
    call MPI_TYPE_FREE(corner, ierror)
    call check(row == MPI_DATATYPE_NULL, 'it is freed')
  end subroutine

  subroutine by_addresses
    integer :: count, both, status(MPI_STATUS_SIZE)
    integer(kind=MPI_ADDRESS_KIND) :: places(2), low, extent
    real(8) :: value
    real(8) :: received
    call MPI_GET_ADDRESS(count, places(1), ierror)
    call MPI_GET_ADDRESS(value, places(2), ierror)
    call check(MPI_AINT_ADD(places(1), MPI_AINT_DIFF(places(2), places(1))) == places(2), 'sums of addresses')
    call MPI_TYPE_CREATE_STRUCT(2, [1, 1], places, [MPI_INTEGER, MPI_DOUBLE_PRECISION], both, ierror)
    call MPI_TYPE_COMMIT(both, ierror)
    count = 5
    value = 2.5d0
    received = 0
    if (rank == 0) call MPI_SEND(MPI_BOTTOM, 1, both, 1, 1, MPI_COMM_WORLD, ierror)
    if (rank == 1) then
      count = 0
      value = 0
      call MPI_RECV(MPI_BOTTOM, 1, both, 0, 1, MPI_COMM_WORLD, status, ierror)
    end if
    call MPI_GET_ADDRESS(received, low, ierror)
    call check(seen(count) == 5 .and. abs(value - 2.5d0) < 1d-9, 'at its addresses')
    call MPI_TYPE_GET_EXTENT(both, low, extent, ierror)
    call check(low == minval(places), 'the lower bound')
    call MPI_TYPE_FREE(both, ierror)
  end subroutine

  ! A variable that was written by its address.
  integer function seen(it)
    integer, volatile :: it
    seen = it
  end function

  subroutine contents
    integer :: made, inner, integers, addresses, types_of, combiner, numbers(5), handles(3)
    integer(kind=MPI_ADDRESS_KIND) :: places(3)
    call MPI_TYPE_CONTIGUOUS(2, MPI_REAL, inner, ierror)
    call MPI_TYPE_CREATE_STRUCT(2, [1, 3], [0_MPI_ADDRESS_KIND, 16_MPI_ADDRESS_KIND], [MPI_INTEGER, inner], made, ierror)
    call MPI_TYPE_GET_ENVELOPE(made, integers, addresses, types_of, combiner, ierror)
    call check(all([integers, addresses, types_of, combiner] == [3, 2, 2, MPI_COMBINER_STRUCT]), 'an envelope')
    handles = -5
    call MPI_TYPE_GET_CONTENTS(made, 5, 3, 3, numbers, places, handles, ierror)
    call check(all(numbers(1:3) == [2, 1, 3]) .and. all(places(1:2) == [0, 16]), 'numbers')
    call check(handles(1) == MPI_INTEGER .and. handles(3) == -5, 'handles')
    call MPI_TYPE_SIZE(handles(2), integers, ierror)
    call check(integers == 8, 'the inner type')
    call MPI_TYPE_FREE(handles(2), ierror)
    call MPI_TYPE_FREE(inner, ierror)
    call MPI_TYPE_FREE(made, ierror)
  end subroutine

  subroutine packing
    character(len=100) :: room
    integer :: place, size, i
    integer(kind=MPI_ADDRESS_KIND) :: far, length
    real :: x
    place = 0
    call MPI_PACK(7, 1, MPI_INTEGER, room, 100, place, MPI_COMM_WORLD, ierror)
    call MPI_PACK(1.25, 1, MPI_REAL, room, 100, place, MPI_COMM_WORLD, ierror)
    call MPI_PACK_SIZE(2, MPI_INTEGER, MPI_COMM_WORLD, size, ierror)
    call check(place == 8 .and. size == 8, 'how much was packed')
    place = 0
    call MPI_UNPACK(room, 100, place, i, 1, MPI_INTEGER, MPI_COMM_WORLD, ierror)
    call MPI_UNPACK(room, 100, place, x, 1, MPI_REAL, MPI_COMM_WORLD, ierror)
    call check(i == 7 .and. x == 1.25, 'what was packed')
    far = 0
    length = 100
    call MPI_PACK_EXTERNAL('external32 ', 258, 1, MPI_INTEGER, room, length, far, ierror)
    call check(far == 4 .and. ichar(room(3:3)) == 1 .and. ichar(room(4:4)) == 2, 'external32')
  end subroutine

  subroutine sizes
    integer :: size, table(2, 2)
    integer(kind=2) :: short
    complex(kind(1d0)) :: z(3)
    character(len=11) :: text
    logical :: is_so
    call MPI_SIZEOF(table, size, ierror)
    call check(size == 4, 'of an INTEGER')
    call MPI_SIZEOF(short, size, ierror)
    call check(size == 2, 'of a short one')
    call MPI_SIZEOF(z, size, ierror)
    call check(size == 16, 'of a complex number')
    call MPI_SIZEOF(text, size, ierror)
    call check(size == 11, 'of a text')
    call MPI_SIZEOF(is_so, size, ierror)
    call check(size == 4, 'of a LOGICAL')
  end subroutine

  subroutine by_precision
    integer, parameter :: long = selected_int_kind(12), exact = selected_real_kind(14)
    integer :: of_int, of_real, matched, status(MPI_STATUS_SIZE), size
    integer(kind=long) :: i, got
    real(kind=exact) :: x
    call MPI_TYPE_CREATE_F90_INTEGER(12, of_int, ierror)
    call MPI_TYPE_CREATE_F90_REAL(14, MPI_UNDEFINED, of_real, ierror)
    i = 10_long ** 12
    call MPI_SENDRECV(i, 1, of_int, rank, 0, got, 1, of_int, rank, 0, MPI_COMM_WORLD, status, ierror)
    call check(got == i, 'an integer of 12 digits')
    call MPI_TYPE_SIZE(of_real, size, ierror)
    call check(size * 8 == storage_size(x), 'a real number of 14 digits')
    call MPI_TYPE_MATCH_SIZE(MPI_TYPECLASS_REAL, 8, matched, ierror)
    call MPI_TYPE_SIZE(matched, size, ierror)
    call check(size == 8, 'a type by its size')
  end subroutine

  subroutine names
    character(len=MPI_MAX_OBJECT_NAME) :: name
    integer :: made, length
    call MPI_TYPE_GET_NAME(MPI_DOUBLE_PRECISION, name, length, ierror)
    call check(name == 'MPI_DOUBLE_PRECISION' .and. length == 20, 'the name of a type')
    call MPI_TYPE_DUP(MPI_REAL, made, ierror)
    call MPI_TYPE_SET_NAME(made, ' mine  ', ierror)
    call MPI_TYPE_GET_NAME(made, name, length, ierror)
    call check(name == ' mine' .and. length == 5, 'blanks behind a name do not count')
    call MPI_TYPE_FREE(made, ierror)
  end subroutine
end program
