macro_rules! columns {
    ($($variant:ident => $name:literal),+ $(,)?) => {
        #[derive(Debug, Clone, Copy, PartialEq, Eq)]
        #[repr(usize)]
        pub enum Column { $($variant),+ }
        impl Column {
            pub const ALL: &'static [Self] = &[$(Self::$variant),+];
            pub fn name(self) -> &'static str { match self { $(Self::$variant => $name),+ } }
            fn from_name(name: &str) -> Option<Self> { match name { $($name => Some(Self::$variant)),+, _=>None } }
        }
    }
}

columns! {
    RouteId=>"route_id", AgencyId=>"agency_id", RouteShortName=>"route_short_name", RouteLongName=>"route_long_name",
    RouteDesc=>"route_desc", RouteType=>"route_type", StopId=>"stop_id", StopCode=>"stop_code", StopName=>"stop_name",
    StopLat=>"stop_lat", StopLon=>"stop_lon", ParentStation=>"parent_station", LocationType=>"location_type",
    TripId=>"trip_id", ServiceId=>"service_id", TripHeadsign=>"trip_headsign", DirectionId=>"direction_id",
    ArrivalTime=>"arrival_time", DepartureTime=>"departure_time", StopSequence=>"stop_sequence", StopHeadsign=>"stop_headsign",
    PickupType=>"pickup_type", DropOffType=>"drop_off_type", Monday=>"monday", Tuesday=>"tuesday", Wednesday=>"wednesday",
    Thursday=>"thursday", Friday=>"friday", Saturday=>"saturday", Sunday=>"sunday", StartDate=>"start_date", EndDate=>"end_date",
    Date=>"date", ExceptionType=>"exception_type", FeedStartDate=>"feed_start_date", FeedEndDate=>"feed_end_date", FeedVersion=>"feed_version",
    FromStopId=>"from_stop_id", ToStopId=>"to_stop_id", TransferType=>"transfer_type", MinTransferTime=>"min_transfer_time",
    FromRouteId=>"from_route_id", ToRouteId=>"to_route_id", FromTripId=>"from_trip_id", ToTripId=>"to_trip_id",
}
