//! Routes, and the check of a source address.

use crate::sys::{self, library};
use crate::{Error, Prefix, Rejection};
use core::net::IpAddr;

/// The number of an interface, which the caller chooses.
#[derive(Clone, Copy, Debug, Default, PartialEq, Eq, PartialOrd, Ord, Hash)]
pub struct InterfaceId(pub u16);

/// A route: where packets to the addresses of a prefix go.
#[derive(Clone, Copy, Debug, PartialEq, Eq, Hash)]
#[repr(transparent)]
pub struct Route(sys::Route);

impl Route {
    /// `next_hop` is the next router. `None`: the destinations are on the link.
    #[must_use]
    pub fn new(prefix: Prefix, next_hop: Option<IpAddr>, interface: InterfaceId) -> Self {
        let next_hop = next_hop.map_or(sys::Addr::default(), Into::into);
        Self(sys::Route { prefix: prefix.into(), next_hop, interface: interface.0 })
    }

    /// The destinations.
    #[must_use]
    pub fn prefix(&self) -> Prefix {
        self.0.prefix.valid()
    }

    /// The next router. `None`: the destinations are on the link.
    #[must_use]
    pub fn next_hop(&self) -> Option<IpAddr> {
        self.0.next_hop.ip()
    }

    /// The interface by which packets leave.
    #[must_use]
    pub fn interface(&self) -> InterfaceId {
        InterfaceId(self.0.interface)
    }
}

/// The place of one route in the index of a [`RouteTable`].
#[derive(Clone, Copy, Debug, Default, PartialEq, Eq, Hash)]
#[repr(transparent)]
pub struct RouteNode(sys::RouteNode);

/// Routes with their index, and optionally with a table for IPv4. It keeps the memory that it is given: slices, arrays,
/// or a `Vec` of a program with `std`.
///
/// With a table the same route is found. Searches for IPv4 addresses are faster, unless each waits for the one before.
/// Each route takes 40 bytes, its [`RouteNode`] 32 and its [cells](RouteTable::cells) 40. The table has five cells of 8
/// bytes more.
///
/// A router checks the source of a frame, and [forwards](crate::forward) it by the route to its destination. It does not
/// forward packets for itself, multicast and link-local packets.
///
/// ```
/// use ip_wire_c::{InterfaceId, Rejection, Route, RouteNode, RouteTable};
///
/// let (lan, wan) = (InterfaceId(1), InterfaceId(2));
/// let routes = [
///     Route::new("192.0.2.0/24".parse()?, None, lan),
///     Route::new("0.0.0.0/0".parse()?, Some("198.51.100.1".parse()?), wan),
/// ];
/// let table = RouteTable::new(routes, [RouteNode::default(); 2])?;
///
/// let route = table.choose("203.0.113.7".parse()?).ok_or(Rejection::NoRouteToSource)?;
/// assert_eq!((route.interface(), route.next_hop()), (wan, "198.51.100.1".parse().ok()));
/// assert_eq!(table.check_source("192.0.2.9".parse()?, lan), Ok(()));
/// assert_eq!(table.check_source("192.0.2.9".parse()?, wan), Err(Rejection::OtherInterface));
/// assert_eq!(table.check_source("127.0.0.1".parse()?, wan), Err(Rejection::Martian));
///
/// let (routes, nodes) = table.into_parts();
/// let table = RouteTable::with_cells(routes, nodes, [0; RouteTable::cells(2)])?;
/// assert_eq!(table.position("203.0.113.7".parse()?), Some(1));
/// # Ok::<(), Box<dyn std::error::Error>>(())
/// ```
#[derive(Clone, Copy, Debug)]
pub struct RouteTable<R, N, C = [u64; 0]> {
    routes: R,
    nodes: N, // as many as routes are their index
    cells: C, // begin with their table, if there are any
}

impl RouteTable<[Route; 0], [RouteNode; 0]> {
    /// The number of cells of the table of so many routes: `RouteTable::cells(2)` is 15.
    #[must_use]
    pub const fn cells(count: usize) -> usize {
        count.saturating_add(1).saturating_mul(5)
    }
}

impl<R: AsRef<[Route]>, N: AsRef<[RouteNode]>> RouteTable<R, N> {
    /// Writes the index of the routes into the nodes.
    ///
    /// # Errors
    ///
    /// [`Error::NoRoom`] if there are more routes than nodes, or more than 2^32 - 1.
    pub fn new(routes: R, nodes: N) -> Result<Self, Error>
    where
        N: AsMut<[RouteNode]>,
    {
        Self::with_cells(routes, nodes, [])
    }
}

impl<R: AsRef<[Route]>, N: AsRef<[RouteNode]>, C: AsRef<[u64]>> RouteTable<R, N, C> {
    /// Writes the index of the routes into the nodes, and their table into the cells. Without cells there is no table.
    ///
    /// # Errors
    ///
    /// [`Error::NoRoom`]
    ///
    /// - if there are more routes than nodes, or more than 2^32 - 1,
    /// - if there are cells, but fewer than the [number](RouteTable::cells) for these routes, or 2^26 routes or more.
    pub fn with_cells(routes: R, mut nodes: N, mut cells: C) -> Result<Self, Error>
    where
        N: AsMut<[RouteNode]>,
        C: AsMut<[u64]>,
    {
        let (from, to, table) = (routes.as_ref(), nodes.as_mut(), cells.as_mut());
        let (count, index) = (from.len(), to.as_mut_ptr().cast());
        // SAFETY: there are as many routes and nodes, and both types are those of C.
        Error::check(unsafe { library().lk_index_routes(from.as_ptr().cast(), count, index, to.len()) })?;
        if !table.is_empty() {
            let (first, len) = (table.as_mut_ptr(), table.len());
            // SAFETY: there are as many cells, and the first `count` nodes are an index.
            Error::check(unsafe { library().lk_make_route_table(index, count, first, len) })?;
        }
        Ok(Self { routes, nodes, cells })
    }

    /// The routes, in their order.
    #[must_use]
    pub fn routes(&self) -> &[Route] {
        self.routes.as_ref()
    }

    /// The route with the longest prefix that contains the address, of several the first.
    #[must_use]
    pub fn choose(&self, addr: IpAddr) -> Option<&Route> {
        self.routes().get(self.position(addr)?)
    }

    /// Its place in the list of routes.
    #[must_use]
    pub fn position(&self, addr: IpAddr) -> Option<usize> {
        let (nodes, cells) = (self.index(), self.cells.as_ref());
        // SAFETY: there are as many nodes and cells, and the call reads only the address.
        let place = unsafe {
            library().lk_choose_route_by_table(
                nodes.as_ptr().cast(),
                nodes.len(),
                cells.as_ptr(),
                cells.len(),
                &addr.into(),
            )
        };
        place.try_into().ok()
    }

    /// Whether a router may accept a packet from this address that came in by this interface.
    ///
    /// # Errors
    ///
    /// - [`Rejection::Martian`]: no host may send from it. Link-local addresses are accepted. `ip_wire.h` has the list.
    /// - [`Rejection::NoRouteToSource`] and [`Rejection::OtherInterface`], by the route to it (strict reverse path forwarding,
    ///   RFC 3704, section 2.2).
    pub fn check_source(&self, src: IpAddr, interface: InterfaceId) -> Result<(), Rejection> {
        let (routes, nodes, cells) = (self.routes(), self.index(), self.cells.as_ref());
        // SAFETY: there are as many routes, nodes and cells, and the call reads only the address.
        Rejection::check(unsafe {
            library().lk_check_source_by_table(
                routes.as_ptr().cast(),
                routes.len(),
                nodes.as_ptr().cast(),
                nodes.len(),
                cells.as_ptr(),
                cells.len(),
                &src.into(),
                interface.0,
            )
        })
    }

    /// The routes and nodes, for example to index other routes.
    pub fn into_parts(self) -> (R, N) {
        (self.routes, self.nodes)
    }

    /// The routes, nodes and cells.
    pub fn into_parts_with_cells(self) -> (R, N, C) {
        (self.routes, self.nodes, self.cells)
    }

    fn index(&self) -> &[RouteNode] {
        let nodes = self.nodes.as_ref();
        &nodes[..nodes.len().min(self.routes().len())]
    }
}
