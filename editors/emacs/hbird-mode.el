;;; hbird-mode.el --- Programs of hbird  -*- lexical-binding: t; -*-

;; Keywords: languages
;; Package-Requires: ((emacs "26.1"))
;; Version: 1.1

;;; Commentary:

;; A mode for files that end in .hb.  `M-x compile' runs the file by `hb', which
;; is to be on the PATH, and `next-error' goes to the places that it tells.
;; Lines are indented by blocks, as `hb fmt' does it.

;;; Code:

(require 'compile)

(defvar hbird-indent-offset 2
  "How many blanks a block is indented by.  `hb fmt' takes two.")

(defvar hbird-mode-syntax-table
  (let ((table (make-syntax-table)))
    (modify-syntax-entry ?# "<" table)
    (modify-syntax-entry ?\n ">" table)
    (modify-syntax-entry ?_ "w" table)
    (modify-syntax-entry ?\" "\"" table)
    (modify-syntax-entry ?\\ "\\" table)
    (dolist (mark '(?+ ?- ?* ?< ?= ?: ?.))
      (modify-syntax-entry mark "." table))
    table)
  "What the letters of a program of hbird are.")

(defconst hbird-font-lock-keywords
  `(("\\<type\\>\\??" . font-lock-keyword-face)
    (,(regexp-opt '("class" "setup" "script" "def" "end" "if" "then" "else" "while" "do"
                    "new" "not" "print" "str")
                  'words)
     . font-lock-keyword-face)
    (,(regexp-opt '("nil" "true" "false" "self") 'words) . font-lock-constant-face)
    (,(regexp-opt '("Nil" "Bool" "Int" "Str" "Any") 'words) . font-lock-builtin-face)
    ("\\.[ \t\r\n]*\\([a-z_][A-Za-z0-9_]*\\)" 1 font-lock-function-name-face)
    ("\\<[A-Z][A-Za-z0-9_]*\\>" . font-lock-type-face)
    ("\\<[a-z_][A-Za-z0-9_]*\\>" . font-lock-variable-name-face))
  "The words of hbird.  What an earlier row has taken, a later one leaves.")

(defconst hbird-compilation-patterns
  (let* ((place "\\(\\([^\n]+?\\):\\([0-9]+\\):\\([0-9]+\\)\\)")
         (call (concat "^stop IllTyped " place)))
    ;; A file's name may have blanks, so all that stands before it is told; of
    ;; the stops only IllTyped begins with an I, and has two places.  The last 1
    ;; lets a line have two messages.
    `((,(concat call " [A-Za-z]+ ") 2 3 4 2 1)
      (,(concat "^stop IllTyped [^\n]+?:[0-9]+:[0-9]+ [A-Za-z]+ " place "$") 2 3 4 2 1)
      (,(concat "^\\(?:stop [A-HJ-Z][A-Za-z]+\\|text \\(?:\\(?:Expected\\|TooMany\\) [^ \n]+\\|[A-Za-z]+\\)\\) "
                place "$")
       2 3 4 2 1)))
  "The places that `hb' tells: of a call, in its body, and of all else.")

(dolist (pattern hbird-compilation-patterns)
  (add-to-list 'compilation-error-regexp-alist pattern))

(defconst hbird-brackets "[()]\\|\\<\\(?:setup\\|script\\|def\\|if\\|while\\|end\\)\\>"
  "What opens or closes a block or a parenthesis.")

(defun hbird-opener ()
  "Where the innermost block or parenthesis begins that is open here, or nil."
  (save-excursion
    (let ((depth 0) (case-fold-search nil))
      (while (and (>= depth 0) (re-search-backward hbird-brackets nil t))
        (let ((word (match-string 0)))
          (unless (nth 8 (save-match-data (syntax-ppss)))
            (setq depth (if (member word '("end" ")")) (1+ depth) (1- depth))))))
      (and (< depth 0) (point)))))

(defun hbird-goes-on-p ()
  "Whether the code before this line wants more."
  (save-excursion
    (beginning-of-line)
    (forward-comment (- (point)))
    (let ((case-fold-search nil))
      (looking-back "\\(?:[(,:.=<+*-]\\|->\\|\\<\\(?:not\\|print\\)\\)" (line-beginning-position)))))

(defun hbird-indentation ()
  "How many blanks stand before this line."
  (save-excursion
    (back-to-indentation)
    (let* ((case-fold-search nil)
           (closes (looking-at ")\\|\\(?:end\\|else\\)\\>"))
           (opener (progn (beginning-of-line) (hbird-opener)))
           (goes-on (and (hbird-goes-on-p) hbird-indent-offset)))
      (if (not opener)
          (if closes 0 (or goes-on 0))
        (goto-char opener)
        (+ (current-indentation)
           (cond (closes 0)
                 ((looking-at "(") hbird-indent-offset)
                 ((looking-at "script\\|setup") (or goes-on 0))
                 (t (+ hbird-indent-offset (or goes-on 0)))))))))

(defun hbird-indent-line ()
  "Indent this line by the blocks around it."
  (let ((depth (hbird-indentation)))
    (if (<= (current-column) (current-indentation))
        (indent-line-to depth)
      (save-excursion (indent-line-to depth)))))

;;;###autoload
(define-derived-mode hbird-mode prog-mode "hbird"
  "A mode for programs of hbird."
  (setq-local comment-start "# ")
  (setq-local comment-start-skip "#+[ \t]*")
  (setq-local comment-end "")
  (setq-local font-lock-defaults '(hbird-font-lock-keywords))
  (setq-local indent-tabs-mode nil)
  (setq-local indent-line-function #'hbird-indent-line)
  (when buffer-file-name
    ;; Behind ./ a name that begins with a dash is no option.
    (setq-local compile-command
                (let ((name (file-name-nondirectory buffer-file-name)))
                  (concat "hb " (shell-quote-argument
                                 (if (string-prefix-p "-" name) (concat "./" name) name)))))))

;;;###autoload
(add-to-list 'auto-mode-alist '("\\.hb\\'" . hbird-mode))

(provide 'hbird-mode)

;;; hbird-mode.el ends here
