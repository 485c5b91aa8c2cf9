! Vempaldi for Fortran: each procedure calls the C function of the same name (include/vempaldi.h says what it writes and refuses).
!
! A table is an array of integer(c_int8_t), a memory one of real(c_double), the arrays of the table in order without gaps. Loops,
! indices, processors and blocks are numbered from 0, as in the table.
!
! An answer is four numbers. answer(1) is the ground's number, 0 where the call was accepted; answer(2) its place, a byte or a loop
! counted from 0, and 0 for too many loops in joining; answer(3) and answer(4) are what the refusal names: for 9 the lower and the higher of
! two references of that loop, its destinations and reads being counted from 0 in byte order; for 20, whose place is the earlier of two
! loops, the later one, and 0. For every other ground, and where accepted, both are 0.
!
! What settles a table's lists beside the table itself is
! - `processors`, how many processors there are (1 to 64);
! - `line`, how many iterations store into one cache line (1 to 64, 1 where it is absent): blocks begin on whole lines;
! - `plan`, a plan by hand: plan(1, k) is the shift of loop k - 1, plan(2, k) its peel, as vempaldi_shifts_and_peels gives them. Where it is
!   absent, those are meant. 19 is given where it has not a pair for each loop (so also where its first extent is not 2), or a number
!   outside 0 to 10000.
! All calls of a row of steps are given the same. `line` and `plan` stand behind the answer and are best given by their names, as in
!
!   call vempaldi_blocks(table, 4, blocks, answer, line=8)
!   call vempaldi_blocks(table, 4, blocks, answer, plan=amounts)
!
! A later version may add arguments of that kind behind them.
!
! Numbers that C takes as unsigned are given here as integer(c_int32_t); none that a caller needs is above 1048576.
module vempaldi
  use, intrinsic :: iso_c_binding
  implicit none
  private

  ! The version of this module; vempaldi_version() is that of the library linked, its three numbers as one: 500 is 0.5.0.
  integer, parameter, public :: vempaldi_version_major = 0, vempaldi_version_minor = 5, vempaldi_version_patch = 0

  ! The first number of an answer.
  integer, parameter, public :: vempaldi_accepted = 0, vempaldi_torn = 1, vempaldi_kind = 2, vempaldi_field = 3, &
    vempaldi_crowd = 4, vempaldi_array = 5, vempaldi_body = 6, vempaldi_edge = 7, vempaldi_tail = 8, vempaldi_serial = 9, &
    vempaldi_processors = 10, vempaldi_short = 11, vempaldi_memory = 12, vempaldi_buffer = 13, vempaldi_unlike = 14, &
    vempaldi_state = 15, vempaldi_line = 17, vempaldi_plan = 19, vempaldi_unmet = 20

  ! The first number of a report. vempaldi_no_report is never written: what is 0 before a call and still 0 after it was refused.
  integer, parameter, public :: vempaldi_no_report = 0, vempaldi_iteration = 1, vempaldi_waiting = 2, vempaldi_finished = 3

  ! No plan has more processors, no line more iterations, no plan by hand a higher shift or peel. No byte of a table past the deciding
  ! ones changes an answer. The other sizes always suffice; the procedures below use them.
  integer, parameter, public :: vempaldi_most_processors = 64, vempaldi_longest_line = 64, vempaldi_most_amount = 10000, &
    vempaldi_deciding_bytes = 2364
  integer, parameter, public :: vempaldi_table_bytes = 2353, vempaldi_facts_bytes = 268, vempaldi_amount_bytes = 128, &
    vempaldi_range_bytes = 128, vempaldi_block_bytes = 512, vempaldi_listing_bytes = 50000

  public :: vempaldi_version, vempaldi_check, vempaldi_join, vempaldi_facts
  public :: vempaldi_shifts_and_peels, vempaldi_threshold, vempaldi_check_plan, vempaldi_sweeps, vempaldi_blocks, vempaldi_listing
  public :: vempaldi_fused_list, vempaldi_peeled_list, vempaldi_fused_ranges, vempaldi_peeled_ranges
  public :: vempaldi_plain_run, vempaldi_step, vempaldi_run, vempaldi_word

  ! 16 and 18 are no grounds: no call gives them.
  character(10), parameter :: words(0:20) = [character(10) :: 'accepted', 'torn', 'kind', 'field', 'crowd', 'array', 'body', &
    'edge', 'tail', 'serial', 'processors', 'short', 'memory', 'buffer', 'unlike', 'state', 'unknown', 'line', 'unknown', 'plan', &
    'unmet']

  ! The struct of include/vempaldi.h. The procedures below make it from their arguments.
  type, bind(c) :: c_settings
    integer(c_int32_t) :: processors, line, by_hand, plan_length
    integer(c_int8_t) :: plan(vempaldi_amount_bytes)
  end type

  interface
    function vempaldi_version() result(version) bind(c, name='vempaldi_version')
      import :: c_int32_t
      integer(c_int32_t) :: version
    end function
    subroutine c_check(table, n, answer) bind(c, name='vempaldi_check')
      import :: c_int8_t, c_size_t, c_int64_t
      integer(c_int8_t), intent(in) :: table(*)
      integer(c_size_t), value :: n
      integer(c_int64_t), intent(out) :: answer(4)
    end subroutine
    function c_join(left, n, right, m, out, room, answer) result(written) bind(c, name='vempaldi_join')
      import :: c_int8_t, c_size_t, c_int64_t
      integer(c_int8_t), intent(in) :: left(*), right(*)
      integer(c_int8_t), intent(inout) :: out(*)
      integer(c_size_t), value :: n, m, room
      integer(c_int64_t), intent(out) :: answer(4)
      integer(c_int64_t) :: written
    end function
    function c_facts(table, n, out, room, answer) result(written) bind(c, name='vempaldi_facts')
      import :: c_int8_t, c_size_t, c_int64_t
      integer(c_int8_t), intent(in) :: table(*)
      integer(c_int8_t), intent(inout) :: out(*)
      integer(c_size_t), value :: n, room
      integer(c_int64_t), intent(out) :: answer(4)
      integer(c_int64_t) :: written
    end function
    function c_shifts_and_peels(table, n, out, room, answer) result(written) bind(c, name='vempaldi_shifts_and_peels')
      import :: c_int8_t, c_size_t, c_int64_t
      integer(c_int8_t), intent(in) :: table(*)
      integer(c_int8_t), intent(inout) :: out(*)
      integer(c_size_t), value :: n, room
      integer(c_int64_t), intent(out) :: answer(4)
      integer(c_int64_t) :: written
    end function
    function c_threshold(table, n, out, room, answer) result(written) bind(c, name='vempaldi_threshold')
      import :: c_int8_t, c_size_t, c_int64_t
      integer(c_int8_t), intent(in) :: table(*)
      integer(c_int8_t), intent(inout) :: out(*)
      integer(c_size_t), value :: n, room
      integer(c_int64_t), intent(out) :: answer(4)
      integer(c_int64_t) :: written
    end function
    function c_check_plan(table, n, settings, answer) result(threshold) bind(c, name='vempaldi_check_plan')
      import :: c_settings, c_int8_t, c_size_t, c_int64_t
      integer(c_int8_t), intent(in) :: table(*)
      type(c_settings), value :: settings
      integer(c_size_t), value :: n
      integer(c_int64_t), intent(out) :: answer(4)
      integer(c_int64_t) :: threshold
    end function
    function c_sweeps(table, n, out, room, answer) result(written) bind(c, name='vempaldi_sweeps')
      import :: c_int8_t, c_size_t, c_int64_t
      integer(c_int8_t), intent(in) :: table(*)
      integer(c_int8_t), intent(inout) :: out(*)
      integer(c_size_t), value :: n, room
      integer(c_int64_t), intent(out) :: answer(4)
      integer(c_int64_t) :: written
    end function
    function c_blocks(table, n, settings, out, room, answer) result(written) bind(c, name='vempaldi_blocks')
      import :: c_settings, c_int8_t, c_size_t, c_int64_t
      integer(c_int8_t), intent(in) :: table(*)
      integer(c_int8_t), intent(inout) :: out(*)
      type(c_settings), value :: settings
      integer(c_size_t), value :: n, room
      integer(c_int64_t), intent(out) :: answer(4)
      integer(c_int64_t) :: written
    end function
    function c_listing(table, n, settings, out, room, answer) result(written) bind(c, name='vempaldi_listing')
      import :: c_settings, c_int8_t, c_size_t, c_int64_t
      integer(c_int8_t), intent(in) :: table(*)
      integer(c_int8_t), intent(inout) :: out(*)
      type(c_settings), value :: settings
      integer(c_size_t), value :: n, room
      integer(c_int64_t), intent(out) :: answer(4)
      integer(c_int64_t) :: written
    end function
    function c_fused_list(table, n, settings, processor, out, room, answer) result(written) &
        bind(c, name='vempaldi_fused_list')
      import :: c_settings, c_int8_t, c_int32_t, c_size_t, c_int64_t
      integer(c_int8_t), intent(in) :: table(*)
      integer(c_int8_t), intent(inout) :: out(*)
      type(c_settings), value :: settings
      integer(c_int32_t), value :: processor
      integer(c_size_t), value :: n, room
      integer(c_int64_t), intent(out) :: answer(4)
      integer(c_int64_t) :: written
    end function
    function c_peeled_list(table, n, settings, processor, out, room, answer) result(written) &
        bind(c, name='vempaldi_peeled_list')
      import :: c_settings, c_int8_t, c_int32_t, c_size_t, c_int64_t
      integer(c_int8_t), intent(in) :: table(*)
      integer(c_int8_t), intent(inout) :: out(*)
      type(c_settings), value :: settings
      integer(c_int32_t), value :: processor
      integer(c_size_t), value :: n, room
      integer(c_int64_t), intent(out) :: answer(4)
      integer(c_int64_t) :: written
    end function
    function c_fused_ranges(table, n, settings, processor, out, room, answer) result(written) &
        bind(c, name='vempaldi_fused_ranges')
      import :: c_settings, c_int8_t, c_int32_t, c_size_t, c_int64_t
      integer(c_int8_t), intent(in) :: table(*)
      integer(c_int8_t), intent(inout) :: out(*)
      type(c_settings), value :: settings
      integer(c_int32_t), value :: processor
      integer(c_size_t), value :: n, room
      integer(c_int64_t), intent(out) :: answer(4)
      integer(c_int64_t) :: written
    end function
    function c_peeled_ranges(table, n, settings, processor, out, room, answer) result(written) &
        bind(c, name='vempaldi_peeled_ranges')
      import :: c_settings, c_int8_t, c_int32_t, c_size_t, c_int64_t
      integer(c_int8_t), intent(in) :: table(*)
      integer(c_int8_t), intent(inout) :: out(*)
      type(c_settings), value :: settings
      integer(c_int32_t), value :: processor
      integer(c_size_t), value :: n, room
      integer(c_int64_t), intent(out) :: answer(4)
      integer(c_int64_t) :: written
    end function
    subroutine c_plain_run(table, n, memory, numbers, answer) bind(c, name='vempaldi_plain_run')
      import :: c_int8_t, c_double, c_size_t, c_int64_t
      integer(c_int8_t), intent(in) :: table(*)
      real(c_double), intent(inout) :: memory(*)
      integer(c_size_t), value :: n, numbers
      integer(c_int64_t), intent(out) :: answer(4)
    end subroutine
    subroutine c_step(table, n, settings, processor, counts, memory, numbers, report, answer) bind(c, name='vempaldi_step')
      import :: c_settings, c_int8_t, c_int32_t, c_double, c_size_t, c_int64_t, vempaldi_most_processors
      integer(c_int8_t), intent(in) :: table(*)
      type(c_settings), value :: settings
      integer(c_int32_t), value :: processor
      integer(c_int32_t), intent(inout) :: counts(vempaldi_most_processors), report(3)
      real(c_double), intent(inout) :: memory(*)
      integer(c_size_t), value :: n, numbers
      integer(c_int64_t), intent(out) :: answer(4)
    end subroutine
    function c_run(table, n, settings, order, m, memory, numbers, answer) result(idle) bind(c, name='vempaldi_run')
      import :: c_settings, c_int8_t, c_double, c_size_t, c_int64_t
      integer(c_int8_t), intent(in) :: table(*), order(*)
      type(c_settings), value :: settings
      real(c_double), intent(inout) :: memory(*)
      integer(c_size_t), value :: n, m, numbers
      integer(c_int64_t), intent(out) :: answer(4)
      integer(c_int64_t) :: idle
    end function
  end interface

contains

  ! The word of a ground, 'accepted' for 0.
  pure function vempaldi_word(number) result(word)
    integer(c_int64_t), intent(in) :: number
    character(:), allocatable :: word
    word = 'unknown'
    if (number >= lbound(words, 1) .and. number <= ubound(words, 1)) word = trim(words(int(number)))
  end function

  subroutine vempaldi_check(table, answer)
    integer(c_int8_t), contiguous, intent(in) :: table(:)
    integer(c_int64_t), intent(out) :: answer(4)
    call c_check(table, size(table, kind=c_size_t), answer)
  end subroutine

  ! The joined table; empty where refused.
  subroutine vempaldi_join(left, right, joined, answer)
    integer(c_int8_t), contiguous, intent(in) :: left(:), right(:)
    integer(c_int8_t), allocatable, intent(out) :: joined(:)
    integer(c_int64_t), intent(out) :: answer(4)
    integer(c_int8_t) :: out(vempaldi_table_bytes)
    integer(c_int64_t) :: written
    out = 0
    written = c_join(left, size(left, kind=c_size_t), right, size(right, kind=c_size_t), out, size(out, kind=c_size_t), answer)
    joined = out(1:written)
  end subroutine

  ! arrays(1, q) is the place of array q - 1 in the memory, counted from 0, arrays(2, q) its length; loops(1, k) is the first index of
  ! loop k - 1, loops(2, k) its last; elements is how many numbers a memory has.
  subroutine vempaldi_facts(table, arrays, loops, elements, answer)
    integer(c_int8_t), contiguous, intent(in) :: table(:)
    integer(c_int32_t), allocatable, intent(out) :: arrays(:, :), loops(:, :)
    integer(c_int32_t), intent(inout) :: elements
    integer(c_int64_t), intent(out) :: answer(4)
    integer(c_int8_t) :: out(vempaldi_facts_bytes)
    integer(c_int64_t) :: written
    integer :: middle
    out = 0
    written = c_facts(table, size(table, kind=c_size_t), out, size(out, kind=c_size_t), answer)
    ! Where the call is refused nothing is written, and there are no arrays and no loops.
    middle = 12 + 8 * number(out(1:4))
    arrays = pairs(out(13:middle))
    loops = pairs(out(middle + 1:written))
    if (written > 0) elements = number(out(9:12))
  end subroutine

  ! amounts(1, k) is the shift of loop k - 1, amounts(2, k) its peel. Two references to one array, one of them storing, count
  ! only where some iterations of their two loops meet there, so the amounts hold for the bounds in this table.
  subroutine vempaldi_shifts_and_peels(table, amounts, answer)
    integer(c_int8_t), contiguous, intent(in) :: table(:)
    integer(c_int32_t), allocatable, intent(out) :: amounts(:, :)
    integer(c_int64_t), intent(out) :: answer(4)
    integer(c_int8_t) :: out(vempaldi_amount_bytes)
    integer(c_int64_t) :: written
    out = 0
    written = c_shifts_and_peels(table, size(table, kind=c_size_t), out, size(out, kind=c_size_t), answer)
    amounts = pairs(out(1:written))
  end subroutine

  ! That of the table's own shifts and peels; vempaldi_check_plan gives that of a plan by hand.
  subroutine vempaldi_threshold(table, threshold, answer)
    integer(c_int8_t), contiguous, intent(in) :: table(:)
    integer(c_int32_t), intent(inout) :: threshold
    integer(c_int64_t), intent(out) :: answer(4)
    integer(c_int8_t) :: out(4)
    out = 0
    if (c_threshold(table, size(table, kind=c_size_t), out, 4_c_size_t, answer) > 0) threshold = number(out)
  end subroutine

  ! Whether a plan is accepted: the one by hand, or where it is absent that of the table's own shifts and peels. The threshold is that
  ! plan's, and is left as found where the plan is refused.
  subroutine vempaldi_check_plan(table, processors, threshold, answer, line, plan)
    integer(c_int8_t), contiguous, intent(in) :: table(:)
    integer(c_int32_t), intent(in) :: processors
    integer(c_int32_t), intent(inout) :: threshold
    integer(c_int64_t), intent(out) :: answer(4)
    integer(c_int32_t), intent(in), optional :: line, plan(:, :)
    integer(c_int64_t) :: told
    told = c_check_plan(table, size(table, kind=c_size_t), settings_of(processors, line, plan), answer)
    if (answer(1) == vempaldi_accepted) threshold = int(told, c_int32_t)
  end subroutine

  subroutine vempaldi_sweeps(table, before, after, answer)
    integer(c_int8_t), contiguous, intent(in) :: table(:)
    integer(c_int32_t), intent(inout) :: before, after
    integer(c_int64_t), intent(out) :: answer(4)
    integer(c_int8_t) :: out(8)
    out = 0
    if (c_sweeps(table, size(table, kind=c_size_t), out, 8_c_size_t, answer) == 0) return
    before = number(out(1:4))
    after = number(out(5:8))
  end subroutine

  ! blocks(1, b) is the first index of block b - 1, blocks(2, b) its last. Each block but the last has a whole number of lines.
  subroutine vempaldi_blocks(table, processors, blocks, answer, line, plan)
    integer(c_int8_t), contiguous, intent(in) :: table(:)
    integer(c_int32_t), intent(in) :: processors
    integer(c_int32_t), allocatable, intent(out) :: blocks(:, :)
    integer(c_int64_t), intent(out) :: answer(4)
    integer(c_int32_t), intent(in), optional :: line, plan(:, :)
    integer(c_int8_t) :: out(vempaldi_block_bytes)
    integer(c_int64_t) :: written
    out = 0
    written = c_blocks(table, size(table, kind=c_size_t), settings_of(processors, line, plan), out, size(out, kind=c_size_t), &
      answer)
    blocks = pairs(out(1:written))
  end subroutine

  ! ranges(1, k) is the first index that the processor runs of loop k - 1 before the barrier, ranges(2, k) the one past the last; both
  ! are 0 where it runs none.
  subroutine vempaldi_fused_ranges(table, processors, processor, ranges, answer, line, plan)
    integer(c_int8_t), contiguous, intent(in) :: table(:)
    integer(c_int32_t), intent(in) :: processors, processor
    integer(c_int32_t), allocatable, intent(out) :: ranges(:, :)
    integer(c_int64_t), intent(out) :: answer(4)
    integer(c_int32_t), intent(in), optional :: line, plan(:, :)
    integer(c_int8_t) :: out(vempaldi_range_bytes)
    integer(c_int64_t) :: written
    out = 0
    written = c_fused_ranges(table, size(table, kind=c_size_t), settings_of(processors, line, plan), processor, out, &
      size(out, kind=c_size_t), answer)
    ranges = pairs(out(1:written))
  end subroutine

  ! The same past the barrier.
  subroutine vempaldi_peeled_ranges(table, processors, processor, ranges, answer, line, plan)
    integer(c_int8_t), contiguous, intent(in) :: table(:)
    integer(c_int32_t), intent(in) :: processors, processor
    integer(c_int32_t), allocatable, intent(out) :: ranges(:, :)
    integer(c_int64_t), intent(out) :: answer(4)
    integer(c_int32_t), intent(in), optional :: line, plan(:, :)
    integer(c_int8_t) :: out(vempaldi_range_bytes)
    integer(c_int64_t) :: written
    out = 0
    written = c_peeled_ranges(table, size(table, kind=c_size_t), settings_of(processors, line, plan), processor, out, &
      size(out, kind=c_size_t), answer)
    ranges = pairs(out(1:written))
  end subroutine

  ! list(1, n) is the loop of the n-th iteration before the barrier, list(2, n) its index.
  subroutine vempaldi_fused_list(table, processors, processor, list, answer, line, plan)
    integer(c_int8_t), contiguous, intent(in) :: table(:)
    integer(c_int32_t), intent(in) :: processors, processor
    integer(c_int32_t), allocatable, intent(out) :: list(:, :)
    integer(c_int64_t), intent(out) :: answer(4)
    integer(c_int32_t), intent(in), optional :: line, plan(:, :)
    integer(c_int32_t), allocatable :: ranges(:, :)
    integer(c_int8_t), allocatable :: out(:)
    integer(c_int64_t) :: written
    call vempaldi_fused_ranges(table, processors, processor, ranges, answer, line, plan)
    allocate (out(room_for(ranges)), source=0_c_int8_t)
    written = c_fused_list(table, size(table, kind=c_size_t), settings_of(processors, line, plan), processor, out, &
      size(out, kind=c_size_t), answer)
    list = pairs(out(1:written))
  end subroutine

  ! The same past the barrier.
  subroutine vempaldi_peeled_list(table, processors, processor, list, answer, line, plan)
    integer(c_int8_t), contiguous, intent(in) :: table(:)
    integer(c_int32_t), intent(in) :: processors, processor
    integer(c_int32_t), allocatable, intent(out) :: list(:, :)
    integer(c_int64_t), intent(out) :: answer(4)
    integer(c_int32_t), intent(in), optional :: line, plan(:, :)
    integer(c_int32_t), allocatable :: ranges(:, :)
    integer(c_int8_t), allocatable :: out(:)
    integer(c_int64_t) :: written
    call vempaldi_peeled_ranges(table, processors, processor, ranges, answer, line, plan)
    allocate (out(room_for(ranges)), source=0_c_int8_t)
    written = c_peeled_list(table, size(table, kind=c_size_t), settings_of(processors, line, plan), processor, out, &
      size(out, kind=c_size_t), answer)
    list = pairs(out(1:written))
  end subroutine

  ! The plan as text with line feeds; empty where it is refused.
  subroutine vempaldi_listing(table, processors, text, answer, line, plan)
    integer(c_int8_t), contiguous, intent(in) :: table(:)
    integer(c_int32_t), intent(in) :: processors
    character(:), allocatable, intent(out) :: text
    integer(c_int64_t), intent(out) :: answer(4)
    integer(c_int32_t), intent(in), optional :: line, plan(:, :)
    integer(c_int8_t), allocatable :: out(:)
    integer(c_int64_t) :: written, at
    allocate (out(vempaldi_listing_bytes), source=0_c_int8_t)
    written = c_listing(table, size(table, kind=c_size_t), settings_of(processors, line, plan), out, size(out, kind=c_size_t), &
      answer)
    allocate (character(written) :: text)
    do at = 1, written
      text(at:at) = achar(out(at))
    end do
  end subroutine

  subroutine vempaldi_plain_run(table, memory, answer)
    integer(c_int8_t), contiguous, intent(in) :: table(:)
    real(c_double), contiguous, intent(inout) :: memory(:)
    integer(c_int64_t), intent(out) :: answer(4)
    call c_plain_run(table, size(table, kind=c_size_t), memory, size(memory, kind=c_size_t), answer)
  end subroutine

  ! counts: a number for each processor that there can be, 0 before the first step. report: kind (vempaldi_iteration, _waiting,
  ! _finished), loop, index.
  subroutine vempaldi_step(table, processors, processor, counts, memory, report, answer, line, plan)
    integer(c_int8_t), contiguous, intent(in) :: table(:)
    integer(c_int32_t), intent(in) :: processors, processor
    integer(c_int32_t), intent(inout) :: counts(vempaldi_most_processors), report(3)
    real(c_double), contiguous, intent(inout) :: memory(:)
    integer(c_int64_t), intent(out) :: answer(4)
    integer(c_int32_t), intent(in), optional :: line, plan(:, :)
    call c_step(table, size(table, kind=c_size_t), settings_of(processors, line, plan), processor, counts, memory, &
      size(memory, kind=c_size_t), report, answer)
  end subroutine

  subroutine vempaldi_run(table, processors, order, memory, idle, answer, line, plan)
    integer(c_int8_t), contiguous, intent(in) :: table(:), order(:)
    integer(c_int32_t), intent(in) :: processors
    real(c_double), contiguous, intent(inout) :: memory(:)
    integer(c_int64_t), intent(out) :: idle, answer(4)
    integer(c_int32_t), intent(in), optional :: line, plan(:, :)
    idle = c_run(table, size(table, kind=c_size_t), settings_of(processors, line, plan), order, size(order, kind=c_size_t), &
      memory, size(memory, kind=c_size_t), answer)
  end subroutine

  ! What C takes as one struct.
  pure function settings_of(processors, line, plan) result(settings)
    integer(c_int32_t), intent(in) :: processors
    integer(c_int32_t), intent(in), optional :: line, plan(:, :)
    type(c_settings) :: settings
    settings = c_settings(processors, 1, 0, 0, 0_c_int8_t)
    if (present(line)) settings%line = line
    if (present(plan)) call take_plan(plan, settings)
  end function

  ! A plan of other than pairs gets a length that no table has, and so is refused. No table has more pairs than there is room for.
  pure subroutine take_plan(plan, settings)
    integer(c_int32_t), intent(in) :: plan(:, :)
    type(c_settings), intent(inout) :: settings
    integer :: k
    settings%by_hand = 1
    settings%plan_length = huge(settings%plan_length)
    if (size(plan, 1) /= 2 .or. size(plan, 2) > vempaldi_amount_bytes / 8) return
    settings%plan_length = 8 * size(plan, 2)
    do k = 1, size(plan, 2)
      settings%plan(8 * k - 7:8 * k - 4) = bytes_of(plan(1, k))
      settings%plan(8 * k - 3:8 * k) = bytes_of(plan(2, k))
    end do
  end subroutine

  ! A list has the iterations of its ranges, eight bytes each.
  pure function room_for(ranges) result(room)
    integer(c_int32_t), intent(in) :: ranges(:, :)
    integer(c_size_t) :: room
    room = 8 * sum(int(ranges(2, :) - ranges(1, :), c_size_t))
  end function

  ! Four little-endian bytes, on a machine of either byte order.
  pure function number(bytes) result(value)
    integer(c_int8_t), intent(in) :: bytes(4)
    integer(c_int32_t) :: value, at
    value = 0
    do at = 4, 1, -1
      value = ior(ishft(value, 8), iand(int(bytes(at), c_int32_t), 255_c_int32_t))
    end do
  end function

  pure function bytes_of(value) result(bytes)
    integer(c_int32_t), intent(in) :: value
    integer(c_int8_t) :: bytes(4)
    integer :: at, byte
    do at = 1, 4
      byte = ibits(value, 8 * at - 8, 8)
      ! The upper half has the bits of the negative numbers here.
      bytes(at) = int(merge(byte - 256, byte, byte > 127), c_int8_t)
    end do
  end function

  pure function pairs(bytes) result(rows)
    integer(c_int8_t), intent(in) :: bytes(:)
    integer(c_int32_t), allocatable :: rows(:, :)
    integer :: at
    allocate (rows(2, size(bytes) / 8))
    do at = 1, size(rows, 2)
      rows(1, at) = number(bytes(8 * at - 7:8 * at - 4))
      rows(2, at) = number(bytes(8 * at - 3:8 * at))
    end do
  end function

end module
