//! Lists written by hand, and the loads that are played on them. Two are in a slab, in safe Rust, and one has boxed nodes with raw pointers.
use std::ptr;

/// Id of no node.
const NONE: usize = usize::MAX;

/// A list whose nodes have ids.
pub trait List {
    fn with_room(nodes: usize) -> Self;
    fn push_back(&mut self, element: u64) -> usize;
    fn pop_front(&mut self) -> Option<u64>;
    fn contains(&self, id: usize) -> bool;
    fn move_to_back(&mut self, id: usize);
    fn first(&self) -> usize;
    fn get(&self, id: usize) -> (u64, usize);
}

/// A slot with its links, and an element unless it is free. Free slots are linked by `next`.
struct Slot {
    next: usize,
    prev: usize,
    element: Option<u64>,
}

/// A list in plain slots.
pub struct Plain {
    slots: Vec<Slot>,
    head: usize,
    tail: usize,
    free: usize,
}

impl Plain {
    #[inline]
    fn link_last(&mut self, id: usize) {
        self.slots[id].next = NONE;
        self.slots[id].prev = self.tail;
        match self.tail {
            NONE => self.head = id,
            tail => self.slots[tail].next = id,
        }
        self.tail = id;
    }

    #[inline]
    fn unlink(&mut self, id: usize) {
        let Slot { next, prev, .. } = self.slots[id];
        match prev {
            NONE => self.head = next,
            prev => self.slots[prev].next = next,
        }
        match next {
            NONE => self.tail = prev,
            next => self.slots[next].prev = prev,
        }
    }
}

impl List for Plain {
    fn with_room(nodes: usize) -> Plain {
        Plain {
            slots: Vec::with_capacity(nodes),
            head: NONE,
            tail: NONE,
            free: NONE,
        }
    }

    #[inline]
    fn push_back(&mut self, element: u64) -> usize {
        let id = match self.free {
            NONE => {
                self.slots.push(Slot {
                    next: NONE,
                    prev: NONE,
                    element: Some(element),
                });
                self.slots.len() - 1
            }
            id => {
                self.free = self.slots[id].next;
                self.slots[id].element = Some(element);
                id
            }
        };
        self.link_last(id);
        id
    }

    #[inline]
    fn pop_front(&mut self) -> Option<u64> {
        if self.head == NONE {
            return None;
        }
        let id = self.head;
        self.unlink(id);
        self.slots[id].next = self.free;
        self.free = id;
        self.slots[id].element.take()
    }

    #[inline]
    fn contains(&self, id: usize) -> bool {
        self.slots
            .get(id)
            .is_some_and(|slot| slot.element.is_some())
    }

    #[inline]
    fn move_to_back(&mut self, id: usize) {
        if id != self.tail {
            self.unlink(id);
            self.link_last(id);
        }
    }

    fn first(&self) -> usize {
        self.head
    }

    fn get(&self, id: usize) -> (u64, usize) {
        let slot = &self.slots[id];
        (slot.element.unwrap_or(0), slot.next)
    }
}

/// A slot that is tagged as free or as a node.
enum TaggedSlot {
    Vacant { next_free: usize },
    Node(Node),
}

struct Node {
    next: usize,
    prev: usize,
    element: u64,
}

/// A list in tagged slots.
pub struct Tagged {
    slots: Vec<TaggedSlot>,
    head: usize,
    tail: usize,
    free: usize,
}

impl Tagged {
    #[inline]
    fn node(&mut self, id: usize) -> &mut Node {
        match &mut self.slots[id] {
            TaggedSlot::Node(node) => node,
            TaggedSlot::Vacant { .. } => unreachable!("a link leads to a free slot"),
        }
    }

    #[inline]
    fn link_last(&mut self, id: usize) {
        let tail = self.tail;
        let node = self.node(id);
        node.next = NONE;
        node.prev = tail;
        match tail {
            NONE => self.head = id,
            tail => self.node(tail).next = id,
        }
        self.tail = id;
    }

    #[inline]
    fn relink(&mut self, prev: usize, next: usize) {
        match prev {
            NONE => self.head = next,
            prev => self.node(prev).next = next,
        }
        match next {
            NONE => self.tail = prev,
            next => self.node(next).prev = prev,
        }
    }
}

impl List for Tagged {
    fn with_room(nodes: usize) -> Tagged {
        Tagged {
            slots: Vec::with_capacity(nodes),
            head: NONE,
            tail: NONE,
            free: NONE,
        }
    }

    #[inline]
    fn push_back(&mut self, element: u64) -> usize {
        let node = TaggedSlot::Node(Node {
            next: NONE,
            prev: NONE,
            element,
        });
        let id = match self.free {
            NONE => {
                self.slots.push(node);
                self.slots.len() - 1
            }
            id => {
                self.free = match std::mem::replace(&mut self.slots[id], node) {
                    TaggedSlot::Vacant { next_free } => next_free,
                    TaggedSlot::Node(_) => unreachable!("a free slot has a node"),
                };
                id
            }
        };
        self.link_last(id);
        id
    }

    #[inline]
    fn pop_front(&mut self) -> Option<u64> {
        if self.head == NONE {
            return None;
        }
        let id = self.head;
        let vacant = TaggedSlot::Vacant {
            next_free: self.free,
        };
        match std::mem::replace(&mut self.slots[id], vacant) {
            TaggedSlot::Node(node) => {
                self.free = id;
                self.relink(node.prev, node.next);
                Some(node.element)
            }
            TaggedSlot::Vacant { .. } => unreachable!("the first slot is free"),
        }
    }

    #[inline]
    fn contains(&self, id: usize) -> bool {
        matches!(self.slots.get(id), Some(TaggedSlot::Node(_)))
    }

    #[inline]
    fn move_to_back(&mut self, id: usize) {
        if id != self.tail {
            let Node { next, prev, .. } = *self.node(id);
            self.relink(prev, next);
            self.link_last(id);
        }
    }

    fn first(&self) -> usize {
        self.head
    }

    fn get(&self, id: usize) -> (u64, usize) {
        match &self.slots[id] {
            TaggedSlot::Node(node) => (node.element, node.next),
            TaggedSlot::Vacant { .. } => unreachable!("a link leads to a free slot"),
        }
    }
}

/// A node in an allocation of its own.
struct BoxedNode {
    next: *mut BoxedNode,
    prev: *mut BoxedNode,
    id: usize,
    element: Option<u64>,
}

/// A list of boxed nodes with raw pointers as links, and a table from ids to nodes. A removed node is kept for the next element.
pub struct Boxed {
    nodes: Vec<*mut BoxedNode>,
    head: *mut BoxedNode,
    tail: *mut BoxedNode,
    spare: *mut BoxedNode,
}

impl Boxed {
    fn make_spare(&mut self) {
        let node = Box::into_raw(Box::new(BoxedNode {
            next: self.spare,
            prev: ptr::null_mut(),
            id: self.nodes.len(),
            element: None,
        }));
        self.nodes.push(node);
        self.spare = node;
    }

    #[inline]
    fn link_last(&mut self, node: *mut BoxedNode) {
        // Each pointer in the table, in a link or at an end points to a node that lives as long as the list.
        unsafe {
            (*node).next = ptr::null_mut();
            (*node).prev = self.tail;
            if self.tail.is_null() {
                self.head = node;
            } else {
                (*self.tail).next = node;
            }
        }
        self.tail = node;
    }

    #[inline]
    fn unlink(&mut self, node: *mut BoxedNode) {
        unsafe {
            let (next, prev) = ((*node).next, (*node).prev);
            if prev.is_null() {
                self.head = next;
            } else {
                (*prev).next = next;
            }
            if next.is_null() {
                self.tail = prev;
            } else {
                (*next).prev = prev;
            }
        }
    }
}

impl List for Boxed {
    fn with_room(nodes: usize) -> Boxed {
        let mut list = Boxed {
            nodes: Vec::with_capacity(nodes),
            head: ptr::null_mut(),
            tail: ptr::null_mut(),
            spare: ptr::null_mut(),
        };
        for _ in 0..nodes {
            list.make_spare();
        }
        list
    }

    #[inline]
    fn push_back(&mut self, element: u64) -> usize {
        if self.spare.is_null() {
            self.make_spare();
        }
        let node = self.spare;
        unsafe {
            self.spare = (*node).next;
            (*node).element = Some(element);
        }
        self.link_last(node);
        unsafe { (*node).id }
    }

    #[inline]
    fn pop_front(&mut self) -> Option<u64> {
        let node = self.head;
        if node.is_null() {
            return None;
        }
        self.unlink(node);
        unsafe {
            (*node).next = self.spare;
            self.spare = node;
            (*node).element.take()
        }
    }

    #[inline]
    fn contains(&self, id: usize) -> bool {
        self.nodes
            .get(id)
            .is_some_and(|node| unsafe { (**node).element.is_some() })
    }

    #[inline]
    fn move_to_back(&mut self, id: usize) {
        let node = self.nodes[id];
        if node != self.tail {
            self.unlink(node);
            self.link_last(node);
        }
    }

    fn first(&self) -> usize {
        match unsafe { self.head.as_ref() } {
            Some(node) => node.id,
            None => NONE,
        }
    }

    fn get(&self, id: usize) -> (u64, usize) {
        let node = unsafe { &*self.nodes[id] };
        let next = unsafe { node.next.as_ref() }.map_or(NONE, |next| next.id);
        (node.element.unwrap_or(0), next)
    }
}

impl Drop for Boxed {
    fn drop(&mut self) {
        for node in self.nodes.drain(..) {
            drop(unsafe { Box::from_raw(node) });
        }
    }
}

/// Load of a list, with its number in the static library.
#[derive(Clone, Copy, PartialEq, Eq)]
pub enum ListLoad {
    Move = 0,
    FillAndEmpty = 1,
    TakeTurns = 2,
}

/// Plays a load as the port's `bench_trace_list` does.
pub fn play<L: List>(load: ListLoad, nodes: usize, picks: &[usize], rounds: usize) -> u64 {
    let mut list = L::with_room(nodes);
    if load != ListLoad::FillAndEmpty {
        fill(&mut list, nodes);
    }
    let mut sum = 0u64;
    for _ in 0..rounds {
        sum = sum.wrapping_add(match load {
            ListLoad::Move => move_all(&mut list, picks),
            ListLoad::FillAndEmpty => fill_and_empty(&mut list, nodes),
            ListLoad::TakeTurns => take_turns(&mut list, nodes),
        });
    }
    sum.wrapping_add(in_order(&list))
}

fn fill<L: List>(list: &mut L, nodes: usize) {
    for number in 0..nodes {
        list.push_back(number as u64);
    }
}

fn move_all<L: List>(list: &mut L, picks: &[usize]) -> u64 {
    let mut moved = 0;
    for pick in picks {
        if list.contains(*pick) {
            list.move_to_back(*pick);
            moved += 1;
        }
    }
    moved
}

fn fill_and_empty<L: List>(list: &mut L, nodes: usize) -> u64 {
    fill(list, nodes);
    let mut sum = 0u64;
    for _ in 0..nodes {
        if let Some(element) = list.pop_front() {
            sum = sum.wrapping_add(element);
        }
    }
    sum
}

fn take_turns<L: List>(list: &mut L, turns: usize) -> u64 {
    let mut sum = 0u64;
    for _ in 0..turns {
        if let Some(element) = list.pop_front() {
            sum = sum.wrapping_add(element);
            list.push_back(element);
        }
    }
    sum
}

fn in_order<L: List>(list: &L) -> u64 {
    let mut sum = 0u64;
    let mut id = list.first();
    while id != NONE {
        let (element, next) = list.get(id);
        sum = sum.wrapping_mul(31).wrapping_add(element);
        id = next;
    }
    sum
}
