/* Communicators made and freed. See random.h. */
#include "random.h"

/* Enters one that this rank may be a member of. The members are of one side. */
static void enter(int comm, int size, const int members[], MPI_Comm handle) {
    Comm *new = &comms[comm];
    new->is_alive = true;
    new->size = new->left = size;
    new->handle = handle;
    for (int i = 0; i < size; i++)
        new->members[i] = members[i];
}

static void enter_all_of(int comm, int parent, MPI_Comm handle) {
    enter(comm, comms[parent].size, comms[parent].members, handle);
    comms[comm].is_inter = comms[parent].is_inter;
    comms[comm].left = comms[parent].left;
}

/* Some members of a communicator in a random order: their ranks in the world. */
static int some_of(int parent, int chosen[]) {
    int size = comms[parent].size;
    for (int i = 0; i < size; i++)
        chosen[i] = comms[parent].members[i];
    shuffle(size, chosen);
    return 1 + draw(size);
}

/* Of a communicator with the same members as `parent'. */
static MPI_Group group_of(MPI_Comm comm, int parent, int size, const int members[]) {
    int list[MOST_RANKS];
    MPI_Group all, group;
    for (int i = 0; i < size; i++)
        list[i] = place_in(parent, members[i]);
    MPI_Comm_group(comm, &all);
    MPI_Group_incl(all, size, list, &group);
    MPI_Group_free(&all);
    return group;
}

/* ---- Of all members ---------------------------------------------------------------------------- */

/* Open MPI 4.1 takes other messages for its own in MPI_Dist_graph_create, where such are on their way. */
static void graph(int comm, MPI_Comm *new, int is_even) {
    int size, rank, index[MOST_RANKS], edges[MOST_RANKS], next, before;
    MPI_Comm_size(comms[comm].handle, &size);
    MPI_Comm_rank(comms[comm].handle, &rank);
    for (int i = 0; i < size; i++)
        index[i] = i + 1, edges[i] = (i + 1) % size;
    next = (rank + 1) % size;
    before = (rank + size - 1) % size;
    if (is_even)
        MPI_Graph_create(comms[comm].handle, size, index, edges, 0, new);
    else
        MPI_Dist_graph_create_adjacent(comms[comm].handle, 1, &before, MPI_UNWEIGHTED, 1, &next,
                                       MPI_UNWEIGHTED, MPI_INFO_NULL, 0, new);
}

/* A row of all members, or of its halves. */
static void row(int comm, MPI_Comm *new, bool is_cut) {
    int dims[2] = {1, comms[comm].size}, periods[2] = {0, 1}, remain[2] = {0, 1};
    if (!is_cut) {
        MPI_Cart_create(comms[comm].handle, 2, dims, periods, 0, new);
        return;
    }
    MPI_Comm grid;
    MPI_Cart_create(comms[comm].handle, 2, dims, periods, 0, &grid);
    MPI_Cart_sub(grid, remain, new);
    MPI_Comm_free(&grid);
}

static void make_like(int comm, int parent) {
    int form = draw(comms[parent].is_inter ? 1 : 7);
    MPI_Comm new = MPI_COMM_NULL;
    if (is_member(parent, me))
        switch (form) {
        case 0: MPI_Comm_dup(comms[parent].handle, &new); break;
        case 1: MPI_Comm_dup_with_info(comms[parent].handle, MPI_INFO_NULL, &new); break;
        case 2: row(parent, &new, false); break;
        case 3: row(parent, &new, true); break;
        case 4:
            MPI_Comm_split_type(comms[parent].handle, MPI_COMM_TYPE_SHARED, 0, MPI_INFO_NULL, &new);
            break;
        default: graph(parent, &new, form == 5);
        }
    enter_all_of(comm, parent, new);
}

/* It may be used once all members have completed their requests. */
static void make_idup(int comm, int parent) {
    enter_all_of(comm, parent, MPI_COMM_NULL);
    comms[comm].is_alive = false;
    comms[comm].unborn = comms[parent].size;
    comms[comm].parent = parent;
    for (int i = 0; i < comms[parent].size; i++) {
        Open *open = new_open(comms[parent].members[i], NOBODY, false);
        open->made = comm;
        open->comm = parent;
        if (open->owner == me)
            MPI_Comm_idup(comms[parent].handle, &comms[comm].handle, &open->handle);
    }
}

/* ---- Of some members --------------------------------------------------------------------------- */

/* Two colours or none; keys that turn the order round. */
static void make_split(int comm, int parent) {
    int colours[MOST_RANKS], turned = draw(2);
    MPI_Comm new = MPI_COMM_NULL;
    for (int i = 0; i < comms[parent].size; i++) {
        colours[i] = draw(5) == 0 ? MPI_UNDEFINED : draw(2);
        if (comms[parent].members[i] == me)
            MPI_Comm_split(comms[parent].handle, colours[i], turned ? -i : 7, &new);
    }
    for (int colour = 0; colour < 2; colour++) {
        int members[MOST_RANKS], size = 0, is_mine = 0;
        for (int i = 0; i < comms[parent].size; i++) {
            int at = turned ? comms[parent].size - 1 - i : i;
            if (colours[at] == colour)
                members[size++] = comms[parent].members[at];
            is_mine += colours[at] == colour && comms[parent].members[at] == me;
        }
        if (size > 0 && comm != NOBODY)
            enter(comm, size, members, is_mine ? new : MPI_COMM_NULL);
        else if (is_mine)
            MPI_Comm_free(&new);
        if (size > 0)
            comm = new_comm();
    }
}

static void make_of_group(int comm, int parent) {
    int members[MOST_RANKS], size = some_of(parent, members), tag = next_tag(), is_mine = 0;
    int by_members = draw(2);
    MPI_Comm new = MPI_COMM_NULL;
    if (by_members)
        parent = 0;
    for (int i = 0; i < size; i++)
        is_mine += members[i] == me;
    if (is_member(parent, me) && (is_mine || !by_members)) {
        MPI_Comm comm_of_all = by_members ? bridge : comms[parent].handle;
        MPI_Group group = group_of(comm_of_all, parent, size, members);
        if (by_members)
            MPI_Comm_create_group(comm_of_all, group, tag, &new);
        else
            MPI_Comm_create(comm_of_all, group, &new);
        MPI_Group_free(&group);
    }
    enter(comm, size, members, new);
}

/* ---- Intercommunicators ------------------------------------------------------------------------ */

/* The members are cut in two; the halves are no longer there afterwards. */
static void make_inter(int comm, int parent) {
    int size = comms[parent].size, left = size / 2, tag = next_tag(), *members = comms[parent].members;
    MPI_Comm half, new = MPI_COMM_NULL;
    if (left == 0)
        return;
    if (is_member(parent, me)) {
        int is_right = place_in(parent, me) >= left;
        MPI_Comm_split(comms[parent].handle, is_right, 0, &half);
        MPI_Intercomm_create(half, 0, bridge, members[is_right ? 0 : left], tag, &new);
        MPI_Comm_free(&half);
    }
    enter(comm, size, members, new);
    comms[comm].is_inter = true;
    comms[comm].left = left;
}

static void make_merged(int comm, int parent) {
    MPI_Comm new = MPI_COMM_NULL;
    if (is_member(parent, me))
        MPI_Intercomm_merge(comms[parent].handle, side_of(parent, me), &new);
    enter(comm, comms[parent].size, comms[parent].members, new);
}

/* ---- Steps ------------------------------------------------------------------------------------- */

static bool has_open(int comm) {
    for (int i = 0; i < open_count; i++)
        if (opens[i].comm == comm)
            return true;
    return false;
}

/* Open MPI 4.1 may hang where a communicator is made while an MPI_Comm_idup is on its way. */
static bool is_one_unborn(void) {
    for (int comm = 0; comm < MOST_COMMS; comm++)
        if (comms[comm].unborn > 0)
            return true;
    return false;
}

void step_make(void) {
    int parent = any_comm(true), comm = new_comm(), form = draw(6);
    if (comm == NOBODY || is_one_unborn())
        return;
    if (comms[parent].is_inter) { /* MPICH 4.0 sends with tags of its own there, which a receive might take */
        if (has_pending(parent) || has_open(parent))
            return;
        if (form < 3)
            make_merged(comm, parent);
        else
            make_like(comm, parent);
        return;
    }
    switch (form) {
    case 0: make_idup(comm, parent); break;
    case 1: make_split(comm, parent); break;
    case 2: make_of_group(comm, parent); break;
    case 3: has_pauses ? make_split(comm, parent) : make_inter(comm, parent); break;
    default: make_like(comm, parent);
    }
}

void step_free(void) {
    int comm = any_comm(true), disconnects = draw(2);
    if (comm == 0 || has_pending(comm) || has_open(comm))
        return;
    comms[comm].is_alive = false;
    if (!is_member(comm, me))
        return;
    drop_inactive(comm);
    if (disconnects && !has_pauses) /* with a receive that is active throughout, MPICH may hang there */
        MPI_Comm_disconnect(&comms[comm].handle);
    else
        MPI_Comm_free(&comms[comm].handle);
}
