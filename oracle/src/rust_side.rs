//! What felica-rs answers, as plain values.
use crate::felica_rs::felica_standard::{BlockListElement, FelicaStandardCommand, FelicaStandardError, ServiceCode};
use crate::texts;
use crate::values::{Answer, Kind, Refusal, Values, payload, shown_case};
use FelicaStandardCommand as C;

pub fn answer(kind: Kind, code: u8, bytes: &[u8]) -> Answer {
    let parsed = match kind {
        Kind::Frame => C::parse_frame(bytes),
        Kind::Payload => C::parse_payload(bytes),
        Kind::Secure => C::parse_secure_payload(code, bytes),
    };
    parsed.map(values).map_err(|error| refusal(&error, kind, code, bytes))
}

pub fn refusal(error: &FelicaStandardError, kind: Kind, code: u8, bytes: &[u8]) -> Refusal {
    let case = || shown_case(kind, code, bytes);
    let FelicaStandardError::Protocol(text) = error else {
        panic!("{}: felica-rs refuses otherwise than by Protocol: {error:?}", case());
    };
    let payload = payload(kind, bytes);
    let own_code = if kind == Kind::Secure { code } else { payload.first().copied().unwrap_or(0) };
    match texts::refusal(text, own_code, payload) {
        Some(refusal) => refusal,
        None => panic!("{}: felica-rs refuses with a text that has no number: {text:?}", case()),
    }
}

fn values(command: FelicaStandardCommand) -> Values {
    match command {
        C::Polling { system_code, request_code, time_slots } => {
            Values { number: system_code, option: request_code, choice: time_slots, ..of(0x00) }
        }
        C::RequestService { idm, service_codes } => of(0x02).idm(idm).services(service_codes),
        C::RequestResponse { idm } => of(0x04).idm(idm),
        C::ReadWithoutEncryption { idm, service_codes, block_list } => {
            of(0x06).idm(idm).services(service_codes).blocks(&block_list)
        }
        C::WriteWithoutEncryption { idm, service_codes, block_list, data } => {
            of(0x08).idm(idm).services(service_codes).blocks(&block_list).data(data)
        }
        C::SearchServiceCode { idm, service_index } => of(0x0A).idm(idm).number(service_index),
        C::RequestSystemCode { idm } => of(0x0C).idm(idm),
        C::RequestBlockInformation { idm, node_codes } => of(0x0E).idm(idm).first(node_codes),
        C::Authentication1 { idm, areas, services, challenge_1a } => {
            Values { second: services, ..of(0x10).idm(idm).first(areas).challenge(&challenge_1a) }
        }
        C::Authentication2 { idm, challenge_2b } => of(0x12).idm(idm).challenge(&challenge_2b),
        C::RequestCodeList { idm, parent_node_code, index } => {
            Values { index, ..of(0x1A).idm(idm).number(parent_node_code) }
        }
        C::RequestBlockInformationEx { idm, node_codes } => of(0x1E).idm(idm).first(node_codes),
        C::SetParameter { idm, encryption_type, packet_type } => {
            Values { option: encryption_type.to_byte(), choice: packet_type.to_byte(), ..of(0x20).idm(idm) }
        }
        other => later_values(other),
    }
}

fn later_values(command: FelicaStandardCommand) -> Values {
    match command {
        C::GetContainerIssueInformation { idm } => of(0x22).idm(idm),
        C::GetAreaInformation { idm, node_code } => of(0x24).idm(idm).number(node_code),
        C::GetNodeProperty { idm, node_property_type, node_codes } => {
            of(0x28).idm(idm).selector(node_property_type.to_byte()).first(node_codes)
        }
        C::GetContainerProperty { property } => of(0x2E).number(property.index()),
        C::RequestServiceV2 { idm, service_codes } => of(0x32).idm(idm).services(service_codes),
        C::GetSystemStatus { idm } => of(0x38).idm(idm),
        C::RequestProductInformation { idm } => of(0x3A).idm(idm),
        C::RequestSpecificationVersion { idm } => of(0x3C).idm(idm),
        C::ResetMode { idm } => of(0x3E).idm(idm),
        C::Authentication1V2 { idm, operation_parameter, nodes, challenge_1a } => {
            of(0x40).idm(idm).selector(operation_parameter).first(nodes).challenge(&challenge_1a)
        }
        C::Authentication2V2 { idm, challenge_2b } => of(0x42).idm(idm).challenge(&challenge_2b),
        C::GetContainerId => of(0x70),
        other => secure_values(other),
    }
}

fn secure_values(command: FelicaStandardCommand) -> Values {
    match command {
        C::Read { block_list } => of(0x14).blocks(&block_list),
        C::Write { block_list, data } => of(0x16).blocks(&block_list).data(data),
        C::ReadV2 { block_list } => of(0x44).blocks(&block_list),
        C::WriteV2 { block_list, data } => of(0x46).blocks(&block_list).data(data),
        C::RegisterIssueId { issue_id, issue_parameter, package } => {
            of(0x80).challenge(&[issue_id, issue_parameter].concat()).package(package)
        }
        C::RegisterArea { area_code, package } => of(0x82).number(area_code).package(package),
        C::RegisterService { service_code, package } => of(0x84).number(service_code).package(package),
        C::ChangeSystemBlock => of(0x8E),
        _ => panic!("felica-rs gave a command that this program does not know"),
    }
}

fn of(code: u8) -> Values {
    Values { code, ..Values::default() }
}

impl Values {
    fn idm(self, idm: [u8; 8]) -> Self {
        Values { idm, ..self }
    }

    fn selector(self, selector: u8) -> Self {
        Values { selector, ..self }
    }

    fn number(self, number: u16) -> Self {
        Values { number, ..self }
    }

    fn first(self, first: Vec<u16>) -> Self {
        Values { first, ..self }
    }

    fn services(self, codes: Vec<ServiceCode>) -> Self {
        self.first(codes.into_iter().map(|code| code.0).collect())
    }

    fn challenge(mut self, bytes: &[u8]) -> Self {
        self.challenge[..bytes.len()].copy_from_slice(bytes);
        self
    }

    fn blocks(self, elements: &[BlockListElement]) -> Self {
        Values {
            numbers: elements.iter().map(|element| element.block_number_or_key_version).collect(),
            places: elements.iter().map(|element| element.service_code_list_index).collect(),
            modes: elements.iter().map(|element| element.access_mode).collect(),
            ..self
        }
    }

    fn data(self, data: Vec<u8>) -> Self {
        Values { data, ..self }
    }

    fn package(self, package: Vec<u8>) -> Self {
        Values { package, ..self }
    }
}
