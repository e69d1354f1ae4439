#!/usr/bin/python3
"""An Ansible module: has a server of smf hold what a file says, restarts what it changed, and waits until all is well."""

import os
import re
import tempfile
import time

from ansible.module_utils.basic import AnsibleModule

DOCUMENTATION = r'''
module: smf_site
short_description: Has a server of smf hold what a file says
description:
  - Does what C(svccfg apply) does, restarts what would go on with its old command, clears what was refreshed and is in
    maintenance, and then waits until C(svcs --well) says that all is well. If it does not become so, the module fails, and
    tells the reasons.
  - In check mode it does nothing, and tells what C(svcadm plan) tells.
options:
  content: {type: str, description: the text of the file. Either this or src.}
  format: {type: str, choices: [toml, cfg], default: toml, description: whether content has tables, or lines of svccfg.}
  src: {type: path, description: the name of the file on the host.}
  exact: {type: bool, default: false, description: also delete all services that the file does not name.}
  restart: {type: bool, default: true, description: restart what would go on with its old command, one after another.}
  timeout: {type: int, default: 60, description: so many seconds each restart has, and all have to become well. 0 does not wait.}
  smf_dir: {type: path, default: /run/smf, description: the folder of the server.}
  bin: {type: path, description: the folder of svcs, svcadm and svccfg, if they are not on the path.}
'''

EXAMPLES = r'''
- name: The site
  smf_site:
    content: "{{ lookup('template', 'site.toml') }}"
    timeout: 120
'''

RETURN = r'''
plan: {type: list, returned: always, description: the lines of svcadm plan. Nothing was to be done if it is empty.}
refreshed: {type: list, returned: always, description: the instances that were refreshed.}
restarted: {type: list, returned: always, description: the instances that were restarted.}
reasons: {type: str, returned: on failure, description: what svcs --well or the command that failed told.}
ansible_facts: {type: dict, returned: always, description: smf has the state of each instance by its name.}
'''

OLD = re.compile(r'goes on (\S+) with its old command$')


class Site:
    """A server, and what the module found and did."""

    def __init__(self, module):
        self.module = module
        self.exact = ['-x'] if module.params['exact'] else []
        self.found = {'changed': False, 'plan': [], 'refreshed': [], 'restarted': []}
        os.environ['SMF_DIR'] = module.params['smf_dir']

    def ask(self, *words):
        """Runs a client, and gives its status with what it prints on both outputs."""
        folder = self.module.params['bin']
        program = os.path.join(folder, words[0]) if folder else self.module.get_bin_path(words[0], True)
        return self.module.run_command([program, *words[1:]])

    def states(self):
        """Gives the states by the names. A transition is told by an asterisk."""
        _, printed, _ = self.ask('svcs', '-H', '-a')
        return {line.split()[1]: line.split()[0] for line in printed.splitlines()}

    def fail(self, what, told):
        """Ends the module, which tells what failed and why."""
        self.module.fail_json(msg=f'{what}: {told.strip()}', reasons=told, ansible_facts={'smf': self.states()}, **self.found)

    def do(self, *words):
        """Runs a client that has to succeed, and gives what it prints."""
        status, printed, told = self.ask(*words)
        if status != 0:
            self.fail(' '.join(words), printed + told)
        return printed.splitlines()

    def apply(self, file):
        """Makes the server hold what a file says, with what then is to be restarted or cleared."""
        self.found['plan'] = self.do('svcadm', 'plan', *self.exact, file)
        self.found['changed'] = bool(self.found['plan'])
        if self.module.check_mode or not self.found['changed']:
            return
        number = self.found['plan'][-1].split()[1]
        applied = self.do('svccfg', 'apply', *self.exact, '--plan', number, file)
        self.found['refreshed'] = [line.split()[1] for line in applied if line.startswith('refreshed ')]
        states = self.states()
        for name in self.found['refreshed']:
            if states.get(name) == 'maintenance':
                self.do('svcadm', 'clear', name)
        if self.module.params['restart']:
            self.restart([old[1] for old in map(OLD.match, self.found['plan']) if old])

    def restart(self, names):
        """Restarts instances, one after another."""
        seconds = self.module.params['timeout']
        wait = ['-s', '-T', str(seconds)] if seconds else []
        for name in names:
            self.found['restarted'].append(name)
            self.do('svcadm', 'restart', *wait, name)

    def await_well(self):
        """Waits until all is well. What is in maintenance without a next try will not be."""
        seconds = self.module.params['timeout']
        end = time.monotonic() + seconds
        while seconds:
            status, printed, told = self.ask('svcs', '--well')
            if status == 0:
                return
            lost = any(' State: maintenance\n' in block and 'Next try in' not in block for block in printed.split('\n\n'))
            if status != 1 or not printed or lost or time.monotonic() >= end:
                self.fail('not well', printed + told)
            time.sleep(0.5)


def main():
    """Runs the module."""
    module = AnsibleModule(
        argument_spec={
            'content': {'type': 'str'},
            'format': {'type': 'str', 'choices': ['toml', 'cfg'], 'default': 'toml'},
            'src': {'type': 'path'},
            'exact': {'type': 'bool', 'default': False},
            'restart': {'type': 'bool', 'default': True},
            'timeout': {'type': 'int', 'default': 60},
            'smf_dir': {'type': 'path', 'default': '/run/smf'},
            'bin': {'type': 'path'},
        },
        required_one_of=[['content', 'src']], mutually_exclusive=[['content', 'src']], supports_check_mode=True)
    site = Site(module)
    if module.params['src']:
        site.apply(module.params['src'])
    else:
        with tempfile.NamedTemporaryFile('w', dir=module.tmpdir, suffix='.' + module.params['format']) as file:
            file.write(module.params['content'])
            file.flush()
            site.apply(file.name)
    if not module.check_mode:
        site.await_well()
    shown = '\n'.join(site.found['plan'])
    module.exit_json(ansible_facts={'smf': site.states()}, diff={'prepared': shown + '\n' if shown else ''}, **site.found)


main()
