// SPDX-License-Identifier: Apache-2.0 OR MIT
//! The names of fields.
use crate::ffi;
use std::fmt;

numbered! {
    /// The name of a field: what it says of the frame. The numbers are those of the header, and never change.
    ///
    /// In the comments a word in code style is how the text of [`show`](crate::show) begins the field. The table of
    /// names, with the numbers and the contents of their fields, is in section 8.4 of docs/FORMATS.md.
    ///
    /// It prints as its word: what the text has before the `=`, `(`, `{` or `:` of the field. A name that has no word
    /// there has one that says what it is, and an unknown one prints as its number.
    ///
    /// ```
    /// use bactool::Name;
    ///
    /// assert_eq!(Name::from(80), Name::Object);
    /// assert_eq!(u32::from(Name::Object), 80);
    /// assert_eq!(Name::Object.to_string(), "object");
    /// assert_eq!(Name::from(9999), Name::Unknown(9999));
    /// assert_eq!(Name::from(9999).to_string(), "name 9999");
    /// ```
    Name {
        // Names of the frame.
        /// The network priority of the frame, 0 to 3 (clause 6.2.2). `prio=`.
        NetworkPriority = 1,
        /// Whether a reply is expected: 0 or 1 (clause 6.2.2). `reply=`.
        ReplyExpected = 2,
        /// The destination: its network, with the address on it as contents. An address without octets is that of every
        /// device on the network. `dest=`.
        Destination = 3,
        /// The hop count of the destination (clause 6.2.2). `hops=`.
        HopCount = 4,
        /// The source: its network, with the address on it as contents. `src=`.
        Source = 5,

        // Names of the heads of APDUs (clause 20.1).
        /// A Confirmed-Request in one piece. `conf`.
        ConfirmedRequest = 10,
        /// An Unconfirmed-Request. `unconf`.
        UnconfirmedRequest = 11,
        /// A SimpleACK. `simple`.
        SimpleAck = 12,
        /// A ComplexACK in one piece. `ack`.
        ComplexAck = 13,
        /// A SegmentACK. `segack`.
        SegmentAck = 14,
        /// An Error. `error`.
        Error = 15,
        /// A Reject. `reject`.
        Reject = 16,
        /// An Abort. `abort`.
        Abort = 17,
        /// A segment of a Confirmed-Request. `conf-seg`.
        RequestSegment = 18,
        /// A segment of a ComplexACK. `ack-seg`.
        AckSegment = 19,
        /// The invoke id. `id=`.
        InvokeId = 20,
        /// Whether a segmented answer is accepted: 0 or 1. `sa=`.
        SegmentedAccepted = 21,
        /// How many segments of an answer are accepted, as the number 0 to 7 that encodes it. `segs=`.
        MaxSegments = 22,
        /// How long an APDU of the answer may be, as the number 0 to 15 that encodes it. `resp=`.
        MaxResponse = 23,
        /// The sequence number of a segment. `seq=`.
        Sequence = 24,
        /// The proposed or actual window, 1 to 127. `win=`.
        Window = 25,
        /// Whether more segments follow: 0 or 1. `more=`.
        More = 26,
        /// Whether a segment was received out of order: 0 or 1. `nak=`.
        Negative = 27,
        /// Whether the server sent it: 0 or 1. `srv=`.
        Server = 28,
        /// Why a request was rejected, a transaction aborted, or a frame not passed on. `reason=`.
        Reason = 29,
        /// The service choice, where no word names the service. `choice=`.
        Choice = 30,
        /// The octets of an opaque service, or the piece of a segment, as contents. `octets=`.
        Octets = 31,

        // Names of network messages (clause 6.4).
        /// A network message, with its message type. `net type=`.
        NetworkMessage = 40,
        /// The number of a network. `network=`.
        Network = 41,
        /// A list of networks begins. `networks=(`.
        Networks = 42,
        /// One network of a list.
        ListedNetwork = 43,
        /// How well a connection performs. `performance=`.
        Performance = 44,
        /// A routing table begins. `ports=(`.
        Ports = 45,
        /// The number of a port of a routing table. `id=`.
        PortId = 46,
        /// The information on a port, as contents. `info=`.
        PortInfo = 47,
        /// How long a connection is to stay, in minutes; 0 means until it is ended. `time=`.
        Time = 48,
        /// Whether the number of a network was configured or learned. `flag=`.
        Flag = 49,
        /// A vendor identifier. `vendor=`.
        Vendor = 50,
        /// The octets of a network message without a layout, as contents. `data=`.
        Data = 51,

        // Names of services (clause 21), each with its service choice.
        /// A ReadProperty or its answer. `ReadProperty`.
        ReadProperty = 60,
        /// A ReadPropertyMultiple or its answer. `ReadPropertyMultiple`.
        ReadPropertyMultiple = 61,
        /// A WriteProperty. `WriteProperty`.
        WriteProperty = 62,
        /// A WritePropertyMultiple. `WritePropertyMultiple`.
        WritePropertyMultiple = 63,
        /// A Who-Is. `Who-Is`.
        WhoIs = 64,
        /// An I-Am. `I-Am`.
        IAm = 65,
        /// A SubscribeCOV. `SubscribeCOV`.
        SubscribeCov = 66,
        /// A ConfirmedCOVNotification. `ConfirmedCOVNotification`.
        ConfirmedCovNotification = 67,
        /// An UnconfirmedCOVNotification. `UnconfirmedCOVNotification`.
        UnconfirmedCovNotification = 68,
        /// A service whose octets are kept as they are. Its choice is a field of its own. `opaque`.
        Opaque = 69,

        // Names of the parts of services.
        /// An object identifier, as its 32 bits: 10 for the type and 22 for the instance. `object=`.
        Object = 80,
        /// A property identifier. `property=`.
        Property = 81,
        /// The index of an element of an array. `index=`.
        Index = 82,
        /// The priority of a write, 1 to 16. `priority=`.
        Priority = 83,
        /// The number of the subscriber's process. `process=`.
        Process = 84,
        /// The device that sends a notification, as the 32 bits of its object identifier. `device=`.
        Device = 85,
        /// Whether notifications are to be confirmed: 0 or 1. `confirmed=`.
        Confirmed = 86,
        /// How many seconds a subscription is to last; 0 is without end. `lifetime=`.
        Lifetime = 87,
        /// How many seconds a subscription continues; 0 is without end. `remaining=`.
        Remaining = 88,
        /// The lowest instance that is sought. `low=`.
        Low = 89,
        /// The highest instance that is sought. `high=`.
        High = 90,
        /// How many octets of an APDU a device accepts. `apdu=`.
        MaxApdu = 91,
        /// Which segmentation a device supports. `segmentation=`.
        Segmentation = 92,
        /// The class of an error. `class=`.
        ErrorClass = 93,
        /// The code of an error. `code=`.
        ErrorCode = 94,

        // Names of structure: what begins a list, an item, a value or a group, and what ends it.
        /// A list of access specifications begins. `specs=(`.
        Specifications = 110,
        /// A list of references to properties begins. `properties=(`.
        Properties = 111,
        /// A list of results begins. `results=(`.
        Results = 112,
        /// A list of values of properties begins. `values=(`.
        Values = 113,
        /// A list ends. `)`.
        ListEnd = 114,
        /// An item of a list begins. `(`.
        Item = 115,
        /// An item of a list ends. `)`.
        ItemEnd = 116,
        /// An open value begins. `value={`.
        Value = 117,
        /// An open value ends. `}`.
        ValueEnd = 118,
        /// Why a property has no value begins: the class and the code of an error. `error=(`.
        PropertyError = 119,
        /// Why a property has no value ends. `)`.
        PropertyErrorEnd = 120,
        /// A group with this number begins in an open value. `[N]{`.
        Group = 121,
        /// A group ends. It has this number. `}`.
        GroupEnd = 122,

        // Names of the elements of open values, by their types (clause 20.2).
        /// A Null. `null`.
        Null = 130,
        /// A Boolean: 0 or 1. `true` or `false`.
        Boolean = 131,
        /// An Unsigned Integer. `u:`.
        Unsigned = 132,
        /// A Signed Integer, as 64 bits of two's complement. `i:`.
        Signed = 133,
        /// The 32 bits of a Real. `r:`.
        Real = 134,
        /// The 64 bits of a Double. `d:`.
        Double = 135,
        /// An Octet String: its octets as contents. `o:`.
        OctetString = 136,
        /// A Character String: the number of its character set, and the octets after that number as contents. `s:`.
        CharacterString = 137,
        /// A Bit String: how many bits, and the octets that hold them as contents, each from bit 7 downwards. Unused bits
        /// are 0. `b:`.
        BitString = 138,
        /// An Enumerated. `e:`.
        Enumerated = 139,
        /// A Date: its four octets as contents. `D:`.
        Date = 140,
        /// A Time: its four octets as contents. `T:`.
        TimeOfDay = 141,
        /// An object identifier, as its 32 bits. `id:`.
        ObjectIdentifier = 142,
        /// A context primitive: the number of its tag, and its octets as contents. `[N]`.
        ContextPrimitive = 143,
    }
}

impl fmt::Display for Name {
    fn fmt(&self, formatter: &mut fmt::Formatter<'_>) -> fmt::Result {
        let number = u32::from(*self);
        match ffi::name(number) {
            Some(word) => formatter.pad(&word),
            None => write!(formatter, "name {number}"),
        }
    }
}
