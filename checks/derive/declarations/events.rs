// ==== cargo_build_message: Cargo's messages of a build
#[derive(Debug, Clone, PartialEq, Eq, Serialize, Deserialize)]
#[non_exhaustive]
#[serde(tag = "reason", rename_all = "kebab-case")]
pub enum Message {
    CompilerArtifact(Artifact),
    BuildScriptExecuted(BuildScript),
    BuildFinished(BuildFinished),
    #[serde(skip)]
    TextLine(String),
}

#[derive(Debug, Clone, PartialEq, Eq, Hash, Serialize, Deserialize)]
pub struct Artifact {
    pub package_id: String,
    #[serde(default)]
    pub manifest_path: String,
    pub features: Vec<String>,
    pub filenames: Vec<String>,
    pub executable: Option<String>,
    pub fresh: bool,
}

#[derive(Debug, Clone, PartialEq, Eq, Hash, Serialize, Deserialize)]
pub struct BuildScript {
    pub package_id: String,
    pub linked_libs: Vec<String>,
    pub cfgs: Vec<String>,
    pub env: Vec<(String, String)>,
    #[serde(default)]
    pub out_dir: String,
}

#[derive(Debug, Clone, PartialEq, Eq, Hash, Serialize, Deserialize)]
pub struct BuildFinished {
    pub success: bool,
}

// ==== cargo_diagnostic_level: the compiler's messages, a level and where
#[derive(Debug, Clone, Copy, Serialize, Deserialize, PartialEq, Eq, Hash)]
#[non_exhaustive]
#[serde(rename_all = "lowercase")]
pub enum DiagnosticLevel {
    #[serde(rename = "error: internal compiler error")]
    Ice,
    Error,
    Warning,
    #[serde(rename = "failure-note")]
    FailureNote,
    Note,
    Help,
}

#[derive(Debug, Clone, Serialize, Deserialize, PartialEq, Eq, Hash)]
pub struct DiagnosticSpan {
    pub file_name: String,
    pub byte_start: u32,
    pub byte_end: u32,
    pub line_start: usize,
    pub is_primary: bool,
    pub label: Option<String>,
    pub suggested_replacement: Option<String>,
    pub level: Option<DiagnosticLevel>,
    pub expansion: Option<Box<DiagnosticSpanMacroExpansion>>,
}

#[derive(Debug, Clone, Serialize, Deserialize, PartialEq, Eq, Hash)]
pub struct DiagnosticSpanMacroExpansion {
    pub span: DiagnosticSpan,
    pub macro_decl_name: String,
}

// ==== ripgrep_message: ripgrep's search in JSON lines
#[derive(Serialize)]
#[serde(tag = "type", content = "data")]
#[serde(rename_all = "snake_case")]
pub enum Found<'a> {
    Begin(Begin<'a>),
    End(End<'a>),
    Context { path: Option<&'a str>, line_number: Option<u64> },
}

#[derive(Serialize)]
pub struct Begin<'a> {
    path: Option<&'a str>,
}

#[derive(Serialize)]
pub struct End<'a> {
    path: Option<&'a str>,
    binary_offset: Option<u64>,
}

// ==== matrix_message_content: Matrix, the content of a message in a room
#[derive(Clone, Debug, Serialize, Deserialize)]
#[serde(tag = "msgtype")]
pub enum MessageType {
    #[serde(rename = "m.text")]
    Text(TextMessage),
    #[serde(rename = "m.notice")]
    Notice(TextMessage),
    #[serde(rename = "m.location")]
    Location { body: String, geo_uri: String },
}

#[derive(Clone, Debug, Serialize, Deserialize)]
pub struct TextMessage {
    pub body: String,
    #[serde(skip_serializing_if = "Option::is_none")]
    pub format: Option<String>,
    #[serde(skip_serializing_if = "Option::is_none")]
    pub formatted_body: Option<String>,
    #[serde(rename = "m.mentions", skip_serializing_if = "Option::is_none")]
    pub mentions: Option<Mentions>,
}

#[derive(Clone, Debug, Default, Serialize, Deserialize)]
pub struct Mentions {
    #[serde(default, skip_serializing_if = "BTreeSet::is_empty")]
    pub user_ids: BTreeSet<String>,
    #[serde(default, skip_serializing_if = "is_default")]
    pub room: bool,
}

fn is_default(b: &bool) -> bool {
    !*b
}

// ==== github_webhook_push: GitHub's webhooks, a push
#[derive(Debug, Clone, PartialEq, Eq, Serialize, Deserialize)]
pub struct PushEvent {
    #[serde(rename = "ref")]
    pub git_ref: String,
    pub before: String,
    pub after: String,
    pub created: bool,
    pub deleted: bool,
    pub forced: bool,
    pub commits: Vec<Commit>,
    pub head_commit: Option<Commit>,
}

#[derive(Debug, Clone, PartialEq, Eq, Serialize, Deserialize)]
pub struct Commit {
    pub id: String,
    pub message: String,
    pub timestamp: String,
    pub author: CommitAuthor,
    #[serde(default)]
    pub added: Vec<String>,
    #[serde(default)]
    pub removed: Vec<String>,
}

#[derive(Debug, Clone, PartialEq, Eq, Serialize, Deserialize)]
pub struct CommitAuthor {
    pub name: String,
    pub email: Option<String>,
    pub username: Option<String>,
}

// ==== sentry_breadcrumb: Sentry, what came before an error
#[derive(Serialize, Deserialize, Debug, Clone, PartialEq)]
pub struct Breadcrumb {
    pub timestamp: u64,
    #[serde(rename = "type", default = "breadcrumb::default_type", skip_serializing_if = "breadcrumb::is_default_type")]
    pub ty: String,
    #[serde(default, skip_serializing_if = "Option::is_none")]
    pub category: Option<String>,
    #[serde(default = "breadcrumb::default_level", skip_serializing_if = "breadcrumb::is_default_level")]
    pub level: Level,
    #[serde(default, skip_serializing_if = "Option::is_none")]
    pub message: Option<String>,
    #[serde(default, skip_serializing_if = "BTreeMap::is_empty")]
    pub data: BTreeMap<String, String>,
}

#[derive(Serialize, Deserialize, Debug, Copy, Clone, PartialEq, Eq)]
#[serde(rename_all = "lowercase")]
pub enum Level {
    Debug,
    Info,
    Warning,
    Error,
    Fatal,
}

mod breadcrumb {
    use super::*;

    pub fn default_type() -> String {
        "default".to_string()
    }

    pub fn is_default_type(ty: &str) -> bool {
        ty == "default"
    }

    pub fn default_level() -> Level {
        Level::Info
    }

    pub fn is_default_level(level: &Level) -> bool {
        *level == Level::Info
    }
}

// ==== notify_event: a file watcher, an event
#[derive(Debug, Clone, PartialEq, Eq, Serialize, Deserialize)]
pub struct WatchEvent {
    #[serde(flatten)]
    pub kind: EventKind,
    pub paths: Vec<PathBuf>,
    #[serde(skip)]
    pub cookie: usize,
}

#[derive(Debug, Clone, Copy, PartialEq, Eq, Serialize, Deserialize)]
#[serde(tag = "type", content = "kind", rename_all = "kebab-case")]
pub enum EventKind {
    Any,
    Create(CreateKind),
    Remove(CreateKind),
    Other,
}

#[derive(Debug, Clone, Copy, PartialEq, Eq, Serialize, Deserialize)]
#[serde(rename_all = "kebab-case")]
pub enum CreateKind {
    Any,
    File,
    Folder,
}
