! The module mpi (MPI 3.1, 17.1.3): the constants of mpif.h, interfaces of all calls, MPI_SIZEOF, and the types of the
! module mpi_f08, which isn't there, for what is written for both. What is included is made by tools/fortran_calls.
module mpi
  implicit none
  include 'mpif.h'
  include 'types.inc'
  type, bind(C) :: MPI_Status
    integer :: MPI_SOURCE, MPI_TAG, MPI_ERROR
    integer, private :: reserved(MPI_STATUS_SIZE - 3)
  end type

  interface operator(==)
    include 'equal.inc'
  end interface
  interface operator(/=)
    include 'unequal.inc'
  end interface
  interface MPI_SIZEOF
    include 'sizes.inc'
  end interface

  interface
    subroutine MPI_PCONTROL(level)
      integer :: level
    end subroutine
    include 'calls.inc'
  end interface

  ! An address, or a pointer of C (8.2, 11.2.2, 11.2.3).
  interface MPI_ALLOC_MEM
    subroutine MPI_ALLOC_MEM(size, info, baseptr, ierror)
      import
      integer(kind=MPI_ADDRESS_KIND) :: size, baseptr
      integer :: info, ierror
    end subroutine
    subroutine MPI_ALLOC_MEM_CPTR(size, info, baseptr, ierror)
      use, intrinsic :: iso_c_binding, only: c_ptr
      import
      integer(kind=MPI_ADDRESS_KIND) :: size
      type(c_ptr) :: baseptr
      integer :: info, ierror
    end subroutine
  end interface
  interface MPI_WIN_ALLOCATE
    subroutine MPI_WIN_ALLOCATE(size, disp_unit, info, comm, baseptr, win, ierror)
      import
      integer(kind=MPI_ADDRESS_KIND) :: size, baseptr
      integer :: disp_unit, info, comm, win, ierror
    end subroutine
    subroutine MPI_WIN_ALLOCATE_CPTR(size, disp_unit, info, comm, baseptr, win, ierror)
      use, intrinsic :: iso_c_binding, only: c_ptr
      import
      integer(kind=MPI_ADDRESS_KIND) :: size
      type(c_ptr) :: baseptr
      integer :: disp_unit, info, comm, win, ierror
    end subroutine
  end interface
  interface MPI_WIN_ALLOCATE_SHARED
    subroutine MPI_WIN_ALLOCATE_SHARED(size, disp_unit, info, comm, baseptr, win, ierror)
      import
      integer(kind=MPI_ADDRESS_KIND) :: size, baseptr
      integer :: disp_unit, info, comm, win, ierror
    end subroutine
    subroutine MPI_WIN_ALLOCATE_SHARED_CPTR(size, disp_unit, info, comm, baseptr, win, ierror)
      use, intrinsic :: iso_c_binding, only: c_ptr
      import
      integer(kind=MPI_ADDRESS_KIND) :: size
      type(c_ptr) :: baseptr
      integer :: disp_unit, info, comm, win, ierror
    end subroutine
  end interface
  interface MPI_WIN_SHARED_QUERY
    subroutine MPI_WIN_SHARED_QUERY(win, rank, size, disp_unit, baseptr, ierror)
      import
      integer(kind=MPI_ADDRESS_KIND) :: size, baseptr
      integer :: win, rank, disp_unit, ierror
    end subroutine
    subroutine MPI_WIN_SHARED_QUERY_CPTR(win, rank, size, disp_unit, baseptr, ierror)
      use, intrinsic :: iso_c_binding, only: c_ptr
      import
      integer(kind=MPI_ADDRESS_KIND) :: size
      type(c_ptr) :: baseptr
      integer :: win, rank, disp_unit, ierror
    end subroutine
  end interface

contains

  ! Statuses of the two forms (17.2.5).
  subroutine MPI_STATUS_F2F08(f_status, f08_status, ierror)
    integer, intent(in) :: f_status(MPI_STATUS_SIZE)
    type(MPI_Status), intent(out) :: f08_status
    integer, intent(out) :: ierror
    f08_status = transfer(f_status, f08_status)
    ierror = MPI_SUCCESS
  end subroutine

  subroutine MPI_STATUS_F082F(f08_status, f_status, ierror)
    type(MPI_Status), intent(in) :: f08_status
    integer, intent(out) :: f_status(MPI_STATUS_SIZE), ierror
    f_status = transfer(f08_status, f_status)
    ierror = MPI_SUCCESS
  end subroutine

  include 'compared.inc'
  include 'size_of.inc'
end module
